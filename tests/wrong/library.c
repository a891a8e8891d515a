/*
 * The calls of the library once more, each with mistakes to order: what the comparison has to notice.
 *
 * The environment variable MISTAKE chooses one by its number; 0 or none is no mistake. run.sh links this in place of the
 * product and sees to it that every mistake is reported as a difference, and no mistake as none. Each stands where it is
 * made, as `wrong(N)`, with its number in the list at the end of the file.
 */
#include <stdlib.h>
#include <string.h>

#include "ghozrembu.h"

static int wrong(int mistake)
{
    static int chosen = -1;
    if (chosen < 0)
        chosen = getenv("MISTAKE") != NULL ? atoi(getenv("MISTAKE")) : 0;
    return chosen == mistake;
}

/* ---- sheets and plans ---- */

typedef struct {
    uint32_t modules, partitions, exclusions, chains;
    uint32_t cabinet[16], memory[16], most[16], delay[16][16];
    uint32_t period[64], budget[64], need[64];
    uint32_t kind[511], first[511], second[511];
    uint32_t limit[63], length[63], member[63][31];
} sheet_t;

typedef struct {
    uint32_t module[64], start[64];
} plan_t;

typedef struct {
    const uint8_t *bytes;
    size_t bits, at;
} reader_t;

static uint32_t bits_at(const uint8_t *bytes, size_t at, unsigned width)
{
    uint32_t value = 0;
    for (size_t bit = at; bit < at + width; bit++)
        value = value << 1 | (bytes[bit / 8] >> (7 - bit % 8) & 1);
    return value;
}

static uint32_t take(reader_t *reader, unsigned width)
{
    reader->at += width;
    return bits_at(reader->bytes, reader->at - width, width);
}

static int holds(const reader_t *reader, size_t width)
{
    return reader->at + width <= reader->bits;
}

static uint8_t read_head(reader_t *reader, sheet_t *sheet)
{
    if (!holds(reader, 32))
        return 10;
    uint32_t version = take(reader, 4);
    sheet->modules = take(reader, 5);
    sheet->partitions = take(reader, 7);
    sheet->exclusions = take(reader, 9);
    sheet->chains = take(reader, 6);
    uint32_t spare = take(reader, 1);
    int outside = sheet->modules < 1 || sheet->modules > 16 || sheet->partitions < 1 || sheet->partitions > 64 ||
                  sheet->exclusions > (wrong(2) ? 401 : 400) || sheet->chains > 32;
    if (wrong(3) && outside)
        return 12;
    if (version != 1 || (spare != 0 && !wrong(4)))
        return 11;
    return outside ? 12 : 0;
}

static uint8_t read_modules(reader_t *reader, sheet_t *sheet)
{
    for (uint32_t j = 0; j < sheet->modules; j++) {
        if (!holds(reader, 30))
            return 10;
        sheet->cabinet[j] = take(reader, 3);
        sheet->memory[j] = take(reader, 20);
        sheet->most[j] = take(reader, 7);
    }
    for (uint32_t from = 0; from < sheet->modules; from++) {
        if (!holds(reader, 16 * sheet->modules))
            return 10;
        for (uint32_t to = 0; to < sheet->modules; to++)
            sheet->delay[from][to] = take(reader, 16);
        if (sheet->delay[from][from] != 0 && !(wrong(5) && from == 15))
            return 13;
    }
    return 0;
}

static uint8_t read_partitions(reader_t *reader, sheet_t *sheet)
{
    for (uint32_t i = 0; i < sheet->partitions; i++) {
        if (!holds(reader, 52))
            return wrong(1) && i > 1 ? 17 : 10;
        sheet->period[i] = take(reader, 16);
        sheet->budget[i] = take(reader, 16);
        sheet->need[i] = take(reader, 20);
        int empty = sheet->period[i] == 0 || (sheet->budget[i] == 0 && !wrong(6));
        if (empty || sheet->budget[i] > sheet->period[i])
            return 14;
    }
    for (uint32_t e = 0; e < sheet->exclusions; e++) {
        if (!holds(reader, 13))
            return 10;
        sheet->kind[e] = take(reader, 1);
        sheet->first[e] = take(reader, 6);
        sheet->second[e] = take(reader, 6);
        int order = wrong(7) ? sheet->first[e] <= sheet->second[e] : sheet->first[e] < sheet->second[e];
        if (!order || sheet->second[e] >= sheet->partitions)
            return 15;
    }
    return 0;
}

static uint8_t read_chains(reader_t *reader, sheet_t *sheet)
{
    for (uint32_t c = 0; c < sheet->chains; c++) {
        if (!holds(reader, 29))
            return 10;
        sheet->limit[c] = take(reader, 24);
        sheet->length[c] = take(reader, 5);
        if (sheet->length[c] < (wrong(8) ? 1 : 2) || sheet->length[c] > 16)
            return 16;
        if (!holds(reader, 6 * sheet->length[c]))
            return 10;
        const uint32_t *member = sheet->member[c];
        for (uint32_t j = 0; j < sheet->length[c]; j++)
            sheet->member[c][j] = take(reader, 6);
        for (uint32_t j = 0; j < sheet->length[c]; j++) {
            if (member[j] >= sheet->partitions || (j > 0 && member[j] == member[j - 1]))
                return 16;
            if (wrong(9) && j > 1 && member[j] == member[j - 2])
                return 16;
        }
    }
    return 0;
}

static uint8_t read_sheet(const uint8_t *bytes, size_t length, sheet_t *sheet)
{
    reader_t reader = {bytes, 8 * length, 0};
    uint8_t number = read_head(&reader, sheet);
    if (number == 0)
        number = read_modules(&reader, sheet);
    if (number == 0)
        number = read_partitions(&reader, sheet);
    if (number == 0)
        number = read_chains(&reader, sheet);
    if (number != 0)
        return number;
    size_t needed = (reader.at + 7) / 8;
    if (length != needed && !(wrong(10) && length == needed + 1))
        return 17;
    if (wrong(29) && bytes[length] == 0xAA)
        return 17;
    return reader.at % 8 != 0 && (bytes[needed - 1] & (255 >> reader.at % 8)) != 0 && !wrong(11) ? 17 : 0;
}

static size_t plan_length(uint32_t partitions)
{
    return (20 * partitions + 7) / 8;
}

static uint8_t read_plan(const uint8_t *bytes, size_t length, uint32_t partitions, plan_t *plan)
{
    size_t needed = plan_length(partitions);
    if (length != needed && !(wrong(12) && length > needed))
        return 18;
    if (partitions % 2 == 1 && (bytes[needed - 1] & 15) != 0 && !wrong(13))
        return 18;
    for (uint32_t i = 0; i < partitions; i++) {
        plan->module[i] = bits_at(bytes, 20 * i, 4);
        plan->start[i] = bits_at(bytes, 20 * i + 4, 16);
    }
    return 0;
}

/* ---- the judge ---- */

static uint32_t divisor(uint32_t a, uint32_t b)
{
    return b == 0 ? a : divisor(b, a % b);
}

static int covers(const sheet_t *sheet, const plan_t *plan, uint32_t i, uint32_t tick)
{
    return tick >= plan->start[i] && (tick - plan->start[i]) % sheet->period[i] < sheet->budget[i];
}

/* Walks two of the longer period and no further. */
static int apart_at_first_sight(const sheet_t *sheet, const plan_t *plan, uint32_t i, uint32_t k)
{
    uint32_t longer = sheet->period[i] > sheet->period[k] ? sheet->period[i] : sheet->period[k];
    for (uint32_t tick = 0; tick < 2 * longer; tick++)
        if (covers(sheet, plan, i, tick) && covers(sheet, plan, k, tick))
            return 0;
    return 1;
}

static int apart(const sheet_t *sheet, const plan_t *plan, uint32_t i, uint32_t k)
{
    int64_t g = divisor(sheet->period[i], sheet->period[k]);
    if (wrong(14))
        g = sheet->period[i] < sheet->period[k] ? sheet->period[i] : sheet->period[k];
    int64_t d = ((int64_t)plan->start[k] - plan->start[i]) % g;
    if (d < 0 && !wrong(15))
        d += g;
    if (wrong(16))
        return sheet->budget[i] <= d && d + sheet->budget[k] < g;
    if (wrong(17))
        return sheet->budget[i] <= d;
    if (wrong(18))
        return sheet->budget[i] <= d && (uint32_t)d <= (uint32_t)g - sheet->budget[k];
    if (wrong(19))
        return apart_at_first_sight(sheet, plan, i, k);
    return sheet->budget[i] <= d && d + sheet->budget[k] <= g;
}

static ghozrembu_answer answer(uint8_t number, uint32_t first, uint32_t second)
{
    ghozrembu_answer made = {number, first, second};
    return made;
}

static ghozrembu_answer c2(const sheet_t *sheet, const plan_t *plan, uint32_t placed)
{
    for (uint32_t k = 0; wrong(21) && k < placed; k++)
        for (uint32_t i = 0; i < k; i++)
            if (plan->module[i] == plan->module[k] && !apart(sheet, plan, i, k))
                return answer(2, i, k);
    for (uint32_t i = 0; i < placed; i++)
        for (uint32_t k = i + 1; k < placed; k++)
            if (plan->module[i] == plan->module[k] && !apart(sheet, plan, i, k))
                return wrong(22) ? answer(2, k, i) : answer(2, i, k);
    return answer(0, 0, 0);
}

static ghozrembu_answer c3(const sheet_t *sheet, const plan_t *plan, uint32_t placed)
{
    for (uint32_t i = 0; i < placed; i++) {
        uint32_t end = plan->start[i] + sheet->budget[i];
        if (wrong(23))
            end &= 0xFFFF;
        if (wrong(24) ? end >= sheet->period[i] : end > sheet->period[i])
            return answer(3, i, 0);
    }
    return answer(0, 0, 0);
}

static ghozrembu_answer c4_c5(const sheet_t *sheet, const plan_t *plan, uint32_t placed)
{
    uint32_t used[16] = {0}, held[16] = {0};
    for (uint32_t i = 0; i < placed; i++) {
        used[plan->module[i]] += sheet->need[i];
        held[plan->module[i]]++;
        if (wrong(25))
            used[plan->module[i]] &= 0xFFFFF;
    }
    for (uint32_t j = 0; j < sheet->modules; j++)
        if (used[j] > sheet->memory[j])
            return answer(4, j, 0);
    for (uint32_t j = 0; j < sheet->modules; j++)
        if (held[j] > sheet->most[j] && !(wrong(26) && sheet->most[j] == 0))
            return answer(5, j, 0);
    return answer(0, 0, 0);
}

static ghozrembu_answer c6_c7(const sheet_t *sheet, const plan_t *plan, uint32_t placed)
{
    uint32_t counted[2] = {0, 0};
    for (uint32_t kind = 0; kind < 2; kind++)
        for (uint32_t e = 0; e < sheet->exclusions; e++) {
            uint32_t looked = wrong(28) ? sheet->kind[e] : kind;
            if (sheet->second[e] >= placed || sheet->kind[e] != looked)
                continue;
            uint32_t one = plan->module[sheet->first[e]], two = plan->module[sheet->second[e]];
            if (looked == 0 ? one == two : sheet->cabinet[one] == sheet->cabinet[two])
                return answer(6 + looked, wrong(27) ? counted[looked] : e, 0);
            counted[looked]++;
        }
    return answer(0, 0, 0);
}

static ghozrembu_answer c8(const sheet_t *sheet, const plan_t *plan, uint32_t placed)
{
    for (uint32_t c = 0; c < sheet->chains; c++) {
        uint32_t length = sheet->length[c], whole = 1, sum = 0;
        const uint32_t *member = sheet->member[c];
        for (uint32_t j = wrong(30) ? length - 1 : 0; j < length; j++)
            whole = whole && member[j] < placed;
        if (!whole)
            continue;
        for (uint32_t j = 0; j + 1 < length; j++) {
            uint32_t i = member[j], k = member[j + 1];
            uint32_t from = i < placed ? plan->module[i] : 0, to = k < placed ? plan->module[k] : 0;
            sum += sheet->budget[i] + sheet->period[k] + (wrong(31) ? sheet->delay[to][from] : sheet->delay[from][to]);
        }
        if (wrong(32))
            sum += sheet->budget[member[length - 1]];
        if (sum > sheet->limit[c])
            return answer(8, c, 0);
    }
    return answer(0, 0, 0);
}

static ghozrembu_answer verdict(const sheet_t *sheet, const plan_t *plan, uint32_t placed)
{
    for (uint32_t i = 0; i < placed; i++)
        if (plan->module[i] >= sheet->modules)
            return answer(1, i, 0);
    ghozrembu_answer got = wrong(20) ? c3(sheet, plan, placed) : answer(0, 0, 0);
    if (got.number == 0)
        got = c2(sheet, plan, placed);
    if (got.number == 0)
        got = c3(sheet, plan, placed);
    if (got.number == 0)
        got = c4_c5(sheet, plan, placed);
    if (got.number == 0)
        got = c6_c7(sheet, plan, placed);
    if (got.number == 0)
        got = c8(sheet, plan, placed);
    return got;
}

ghozrembu_answer ghozrembu_judge(const uint8_t *sheet_bytes, size_t sheet_length, const uint8_t *plan_bytes,
                                 size_t plan_bytes_length)
{
    sheet_t sheet;
    plan_t plan;
    uint8_t number = read_sheet(sheet_bytes, sheet_length, &sheet);
    if (number != 0)
        return answer(number, 0, wrong(34) ? 1 : 0);
    number = read_plan(plan_bytes, plan_bytes_length, sheet.partitions, &plan);
    if (number != 0)
        return answer(wrong(33) && plan_bytes_length == 0 ? 10 : number, 0, 0);
    return verdict(&sheet, &plan, sheet.partitions);
}

uint8_t ghozrembu_sheet_number(const uint8_t *sheet_bytes, size_t sheet_length)
{
    sheet_t sheet;
    return read_sheet(sheet_bytes, sheet_length, &sheet);
}

/* ---- the search ---- */

typedef struct {
    sheet_t sheet;
    plan_t plan;
    uint32_t made, budget;
} search_t;

static uint8_t extend(search_t *search, uint32_t j)
{
    const sheet_t *sheet = &search->sheet;
    uint32_t last = sheet->period[j] - sheet->budget[j];
    for (uint32_t module = 0; module < sheet->modules; module++)
        for (uint32_t start = wrong(45) && module > 0 ? 1 : 0; start <= last; start++) {
            if (search->made == search->budget)
                return 27;
            search->made += wrong(35) && start == 0 && module > 0 && j > 3 ? 0 : 1;
            search->plan.module[j] = module;
            search->plan.start[j] = start;
            if (verdict(sheet, &search->plan, j + 1).number != 0)
                continue;
            if (j + 1 == sheet->partitions)
                return 0;
            uint8_t end = extend(search, j + 1);
            if (end != 26)
                return end;
        }
    return 26;
}

static void write_plan(const plan_t *plan, uint32_t partitions, uint8_t *buffer)
{
    memset(buffer, 0, plan_length(partitions));
    for (uint32_t bit = 0; bit < 20 * partitions; bit++) {
        uint32_t placement = plan->module[bit / 20] << 16 | plan->start[bit / 20];
        if (placement >> (19 - bit % 20) & 1)
            buffer[bit / 8] |= 128 >> bit % 8;
    }
}

ghozrembu_found ghozrembu_search(const uint8_t *sheet_bytes, size_t sheet_length, uint32_t budget, uint8_t *buffer,
                                 size_t buffer_length)
{
    static search_t search;
    ghozrembu_found found = {read_sheet(sheet_bytes, sheet_length, &search.sheet), 0};
    if (found.number != 0)
        return found;
    size_t needed = plan_length(search.sheet.partitions);
    if (buffer_length < needed) {
        if (wrong(36))
            memset(buffer, 0, buffer_length);
        found.number = 23;
        return found;
    }
    search.made = 0;
    search.budget = budget;
    found.number = wrong(37) && budget == 0 ? 26 : extend(&search, 0);
    found.tries = found.number == 27 ? budget : search.made;
    if (wrong(38) && found.number == 26 && search.made == budget)
        found.number = 27;
    if (found.number == 0) {
        if (wrong(39))
            memset(buffer, 0, buffer_length);
        write_plan(&search.plan, search.sheet.partitions, buffer);
    } else if (wrong(40)) {
        buffer[0] ^= 1;
    }
    return found;
}

/* ---- tables ---- */

static uint8_t frame_of(const sheet_t *sheet, const plan_t *plan, uint32_t module, uint64_t *frame)
{
    *frame = 1;
    for (uint32_t i = 0; i < sheet->partitions; i++) {
        if (plan->module[i] != module)
            continue;
        *frame = *frame / divisor(sheet->period[i], *frame % sheet->period[i]) * sheet->period[i];
        if (wrong(43)) {
            *frame &= 0xFFFFFFFF;
            *frame = *frame == 0 ? 1 : *frame;
        } else if (*frame > 16777215) {
            return 21;
        }
    }
    return *frame > (wrong(44) ? 16777214 : 16777215) ? 21 : 0;
}

static uint8_t *write_slot(uint8_t *at, uint32_t start, uint32_t length, uint32_t partition)
{
    *at++ = start >> 16;
    *at++ = start >> 8;
    *at++ = start;
    *at++ = length >> 8;
    *at++ = length;
    *at++ = partition << (wrong(47) && partition > 31 ? 1 : 2);
    return at;
}

static void write_table(const sheet_t *sheet, const plan_t *plan, uint32_t module, uint64_t frame, uint64_t count,
                        uint8_t *at)
{
    uint32_t next[64];
    memcpy(next, plan->start, sizeof next);
    *at++ = frame >> 16;
    *at++ = frame >> 8;
    *at++ = frame;
    *at++ = count >> 3;
    *at++ = count << 5;
    while (count-- > 0) {
        uint32_t first = 64;
        for (uint32_t i = 0; i < sheet->partitions; i++)
            if (plan->module[i] == module && (first == 64 || next[i] < next[first]))
                first = i;
        at = write_slot(at, next[first], sheet->budget[first], first);
        next[first] += sheet->period[first];
    }
}

ghozrembu_built ghozrembu_build(const uint8_t *sheet_bytes, size_t sheet_length, const uint8_t *plan_bytes,
                                size_t plan_bytes_length, size_t module, uint8_t *buffer, size_t buffer_length)
{
    static sheet_t sheet;
    static plan_t plan;
    ghozrembu_built built = {read_sheet(sheet_bytes, sheet_length, &sheet), 0};
    if (built.number == 0)
        built.number = read_plan(plan_bytes, plan_bytes_length, sheet.partitions, &plan);
    if (built.number == 0 && wrong(41) && module >= sheet.modules)
        built.number = 20;
    if (built.number == 0)
        built.number = verdict(&sheet, &plan, sheet.partitions).number;
    if (built.number == 0 && (wrong(42) ? (uint8_t)module : module) >= sheet.modules)
        built.number = 20;
    uint64_t frame = 1, count = 0;
    if (built.number == 0)
        built.number = frame_of(&sheet, &plan, module, &frame);
    if (built.number != 0)
        return built;
    for (uint32_t i = 0; i < sheet.partitions; i++)
        count += plan.module[i] == (uint32_t)module ? frame / sheet.period[i] : 0;
    if (count > (wrong(61) ? 1023 : 1024)) {
        built.number = 22;
    } else if (buffer_length < 5 + 6 * count + (wrong(46) ? 1 : 0)) {
        built.number = 23;
    } else {
        write_table(&sheet, &plan, module, frame, count, buffer);
        built.length = 5 + 6 * count - (wrong(48) ? 1 : 0);
        if (wrong(59))
            buffer[built.length] = 0;
    }
    return built;
}

uint8_t ghozrembu_table_number(const uint8_t *table, size_t table_length)
{
    if (table_length < 5)
        return 24;
    uint32_t frame = bits_at(table, 0, 24), count = bits_at(table, 24, 11), end = 0;
    if (frame == 0 || count > 1024 || table_length != 5 + 6 * count)
        return 24;
    if (bits_at(table, 35, 5) != 0 && !wrong(49))
        return 24;
    for (uint32_t s = 0; s < count; s++) {
        const uint8_t *slot = table + 5 + 6 * s;
        uint32_t start = bits_at(slot, 0, 24), length = bits_at(slot, 24, 16);
        if ((length == 0 && !wrong(50)) || start < end || ((slot[5] & 3) != 0 && !wrong(51)))
            return 24;
        end = start + length;
        if (wrong(52))
            end &= 0xFFFFFF;
    }
    return end > frame ? 24 : 0;
}

ghozrembu_stepped ghozrembu_step(const uint8_t *table, size_t table_length, ghozrembu_position *position)
{
    ghozrembu_stepped stepped = {24, 0};
    if (table_length < 5)
        return stepped;
    uint32_t frame = bits_at(table, 0, 24), count = bits_at(table, 24, 11);
    if (frame == 0 || (count > 1024 && !wrong(53)) || table_length != 5 + 6 * (size_t)count)
        return stepped;
    if (wrong(54) && bits_at(table, 35, 5) != 0)
        return stepped;
    stepped.number = 25;
    if (position->tick >= frame || position->slot > count || (wrong(55) && count > 0 && position->slot == count))
        return stepped;
    uint32_t start = 0, end = 0;
    uint8_t partition = GHOZREMBU_IDLE;
    if (position->slot < count || wrong(60)) {
        const uint8_t *slot = table + 5 + 6 * position->slot;
        start = bits_at(slot, 0, 24);
        end = start + bits_at(slot, 24, 16);
        if (position->slot < count && position->tick >= end) {
            position->slot = wrong(56) ? 0 : position->slot;
            return stepped;
        }
        if (position->slot < count && position->tick >= start)
            partition = slot[5] >> 2;
    }
    stepped.number = 0;
    stepped.partition = partition;
    int ended = position->slot < count && position->tick + 1 == end;
    position->tick++;
    if (position->tick == frame) {
        position->tick = 0;
        position->slot = wrong(57) ? position->slot : 0;
        if (wrong(58) && frame > 1000000)
            position->slot = count;
    } else if (ended) {
        position->slot++;
    }
    return stepped;
}

/*
 * MISTAKES
 *  1 a sheet that ends in its third partition or later is 17
 *  2 401 exclusions pass
 *  3 12 before 11
 *  4 the spare bit is not read
 *  5 the last delay of the largest matrix is not tested
 *  6 a budget of 0 passes
 *  7 an exclusion may name one partition twice
 *  8 a chain of one member passes
 *  9 a member that comes back later is refused
 * 10 one byte left over passes
 * 11 the sheet's fill bits are not read
 * 12 a longer plan passes
 * 13 the plan's fill bits are not read
 * 14 the shorter period in place of the divisor
 * 15 the sign of a difference goes into the remainder
 * 16 d + Bk < g
 * 17 the second half of Korst's condition left out
 * 18 g - B computed unsigned
 * 19 two of the longer period are tested
 * 20 C3 before C2
 * 21 pairs by the larger partition first
 * 22 the places of C2 exchanged
 * 23 t + B in 16 bits
 * 24 t + B < T
 * 25 memory summed in 20 bits
 * 26 most partitions 0 means no limit
 * 27 exclusions counted by kind
 * 28 C6 and C7 judged entry by entry
 * 29 reads the byte behind the sheet
 * 30 a chain counts when its last member is placed
 * 31 the delay in the other direction
 * 32 the last member's budget added to the chain
 * 33 an empty plan is 10
 * 34 a place with a sheet's number
 * 35 a try not counted, deep in the search
 * 36 a short buffer is cleared
 * 37 a budget of 0 answers none
 * 38 none at just the budget is stopped
 * 39 the bytes behind the plan are cleared
 * 40 none and stopped write into the buffer
 * 41 20 before the constraints
 * 42 the module number in 8 bits
 * 43 the frame multiplied in 32 bits
 * 44 the largest frame is refused
 * 45 start 0 is not tried on later modules
 * 46 a buffer of just the table's length is refused
 * 47 partitions above 31 written wrong
 * 48 the length is one short
 * 49 the zero bits of the table's head are not read
 * 50 slots of length 0 pass
 * 51 the zero bits of a slot are not read
 * 52 the end of a slot in 24 bits
 * 53 a step takes more than 1,024 slots
 * 54 a step reads the zero bits
 * 55 s = c is refused
 * 56 a refused step changes the position
 * 57 the slot stays at the end of the frame
 * 58 right for one frame, and idle afterwards
 * 59 writes the byte behind the table
 * 60 reads a slot behind the last one
 * 61 1,024 slots are refused
 */
