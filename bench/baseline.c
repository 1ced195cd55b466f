/*
 * The baseline of bench/run.sh: the work of `eractl serve` for one lane, in plain C.
 *
 *     baseline plain "<table line>"     the marks stay in memory
 *     baseline commit "<table line>"    the marks stand on the metadata disk, too
 *
 * It reads the same stream from standard input within the same limits, makes the same reads, writes and syncs of its
 * devices, and answers the same text. A marked write is one write and one sync. In the mode `commit` a first write makes
 * a commit before, which is three syncs of the metadata, and the opening syncs the four stripes of the origin.
 *
 * It's a measure and no second eractl: it runs alone, and believes what a metadata image says. Where a device fails or is
 * no image for the table line, it says so on standard error and ends with status 4.
 */
#define _GNU_SOURCE
#include <errno.h>
#include <fcntl.h>
#include <stdint.h>
#include <stdio.h>
#include <stdlib.h>
#include <string.h>
#include <sys/file.h>
#include <sys/stat.h>
#include <unistd.h>

#if __BYTE_ORDER__ != __ORDER_LITTLE_ENDIAN__
#error "pages are written as they stand in memory, whose numbers have to be little-endian"
#endif

enum {
    SECTOR = 512,
    PAGE = 4096,
    MOST_BLOCKS = 65536,
    WORDS = MOST_BLOCKS / 64,
    MOST_SETS = 16,
    STRIPES = 4,
    ROOT = 3576,
    LONGEST_LINE = 131200,
    ROUND_COMMANDS = 4096,
    ROUND_PAYLOAD = 67108864,
    SESSION_COMMANDS = 65536,
    SESSION_PAYLOAD = 268435456,
    SESSION_LINES = 131072,
};

static void stop(const char *what)
{
    fprintf(stderr, "baseline: %s%s%s\n", what, errno ? ": " : "", errno ? strerror(errno) : "");
    exit(4);
}

static void *take(size_t bytes)
{
    void *memory = malloc(bytes);
    if (!memory)
        stop("memory");
    return memory;
}

/* ---- the answers, which go out when the buffer is full and behind each round ---- */

static char given[65536];
static size_t given_count;

static void give_out(void)
{
    for (size_t at = 0; at < given_count;) {
        ssize_t count = write(1, given + at, given_count - at);
        if (count < 0 && errno != EINTR)
            exit(8);
        if (count > 0)
            at += (size_t)count;
    }
    given_count = 0;
}

/* Room for so many more characters, at most 128. */
static char *room_for(size_t count)
{
    if (given_count + count > sizeof given)
        give_out();
    return given + given_count;
}

static void text(const char *characters)
{
    size_t count = strlen(characters);
    memcpy(room_for(count), characters, count);
    given_count += count;
}

static void number(uint64_t value)
{
    char digits[20];
    size_t first = sizeof digits;
    do {
        digits[--first] = (char)('0' + value % 10);
        value /= 10;
    } while (value);
    memcpy(room_for(sizeof digits - first), digits + first, sizeof digits - first);
    given_count += sizeof digits - first;
}

static void hexadecimal(const uint8_t *bytes, size_t count)
{
    static const char digits[] = "0123456789abcdef";
    for (size_t i = 0; i < count; i++) {
        char *at = room_for(2);
        at[0] = digits[bytes[i] >> 4];
        at[1] = digits[bytes[i] & 15];
        given_count += 2;
    }
}

/* ---- devices ---- */

static void read_at(int file, void *into, size_t count, uint64_t at)
{
    for (size_t done = 0; done < count;) {
        ssize_t got = pread(file, (char *)into + done, count - done, (off_t)(at + done));
        if (got == 0 || (got < 0 && errno != EINTR))
            stop("a read failed");
        if (got > 0)
            done += (size_t)got;
    }
}

static void write_at(int file, const void *bytes, size_t count, uint64_t at)
{
    for (size_t done = 0; done < count;) {
        ssize_t put = pwrite(file, (const char *)bytes + done, count - done, (off_t)(at + done));
        if (put < 0 && errno != EINTR)
            stop("a write failed");
        if (put > 0)
            done += (size_t)put;
    }
}

static void sync_of(int file)
{
    if (fdatasync(file) != 0)
        stop("a sync failed");
}

/* An image, locked, and how many whole sectors it has. */
static int open_image(const char *name, uint64_t *sectors)
{
    struct stat about;
    int file = open(name, O_RDWR | O_CLOEXEC);
    if (file < 0 || fstat(file, &about) != 0 || flock(file, LOCK_EX | LOCK_NB) != 0)
        stop(name);
    if (!S_ISREG(about.st_mode))
        stop("not a regular file");
    *sectors = (uint64_t)about.st_size / SECTOR;
    return file;
}

/* ---- marks ---- */

static struct {
    uint64_t sectors;
    uint32_t block_sectors, blocks, array_pages, set_pages, root_pages;
} geometry;

struct marks {
    uint32_t era;
    uint32_t archived;              /* how many sets are archived */
    uint32_t order[MOST_SETS + 1];  /* the archived sets, oldest first, then the current one, then spare ones */
    uint32_t eras[MOST_SETS + 1];
    uint64_t sets[MOST_SETS + 1][WORDS];
    uint32_t array[MOST_BLOCKS];
};

static struct marks marks, held;
static int is_held;

static uint64_t *current_set(void)
{
    return marks.sets[marks.order[marks.archived]];
}

static void begin_marks(uint32_t era)
{
    marks.era = era;
    for (uint32_t i = 0; i <= MOST_SETS; i++)
        marks.order[i] = i;
    marks.eras[0] = era;
}

/* The entries of a page of the array become the set's era, where the set has the block. */
static void transcribe(uint32_t set, uint32_t page)
{
    for (uint32_t word = page * 16; word < page * 16 + 16; word++)
        for (uint64_t bits = marks.sets[set][word]; bits; bits &= bits - 1)
            marks.array[word * 64 + (uint32_t)__builtin_ctzll(bits)] = marks.eras[set];
}

static void drop_oldest(void)
{
    uint32_t oldest = marks.order[0];
    memmove(marks.order, marks.order + 1, sizeof marks.order - sizeof marks.order[0]);
    marks.order[MOST_SETS] = oldest;
    marks.archived--;
}

static void roll(void)
{
    if (marks.archived == MOST_SETS) {
        for (uint32_t page = 0; page < geometry.array_pages; page++)
            transcribe(marks.order[0], page);
        drop_oldest();
    }
    marks.archived++;
    marks.era++;
    marks.eras[marks.order[marks.archived]] = marks.era;
    memset(current_set(), 0, sizeof marks.sets[0]);
}

/* Which of 64 blocks were marked since an era, as the bits of a word. */
static uint64_t since(const struct marks *from, uint32_t era, uint32_t word)
{
    const uint32_t *entries = from->array + word * 64;
    uint8_t flags[64];
    uint64_t bits = 0;
    for (uint32_t i = 0; i < 64; i++)
        flags[i] = entries[i] >= era;
    for (uint32_t i = 0; i < 8; i++) {
        uint64_t eight;
        memcpy(&eight, flags + i * 8, 8);
        bits |= (eight * UINT64_C(0x0102040810204080)) >> 56 << (i * 8);
    }
    for (uint32_t i = 0; i <= from->archived; i++)
        if (from->eras[from->order[i]] >= era)
            bits |= from->sets[from->order[i]][word];
    return bits;
}

static void give_run(uint32_t *runs, uint32_t first, uint32_t end)
{
    if ((*runs)++)
        text(",");
    number(first);
    if (end - first > 1) {
        text("-");
        number(end - 1);
    }
}

static void give_runs(const struct marks *from, uint32_t era)
{
    uint32_t runs = 0, first = 0;
    int within = 0;
    for (uint32_t word = 0; word < (geometry.blocks + 63) / 64; word++) {
        uint64_t bits = since(from, era ? era : 1, word);
        for (uint32_t at = 0; at < 64;) {
            uint64_t rest = (within ? ~bits : bits) >> at;
            if (!rest)
                break;
            at += (uint32_t)__builtin_ctzll(rest);
            if (within)
                give_run(&runs, first, word * 64 + at);
            first = word * 64 + at;
            within = !within;
        }
    }
    if (within)
        give_run(&runs, first, geometry.blocks);
    if (!runs)
        text("-");
}

/* ---- the metadata disk ---- */

static int commits;  /* whether there is one */
static int metadata = -1;
static uint64_t metadata_pages;
static uint64_t sequence;
static int active = 1;      /* the slot of the last commit; the first one goes to slot 0 */
static int may_be_open[2];  /* whether a slot's gate may be open */
static int area = -1, held_area = -1;  /* the page areas of the committed and of the held root */

static uint32_t pages_of(const struct marks *of)
{
    return geometry.array_pages + geometry.set_pages * (of->archived + 1);
}

static uint32_t first_page(int of_area)
{
    return 3 + (uint32_t)of_area * geometry.root_pages;
}

/* A root of these marks, whose pages stand in an area. */
static void make_root(uint8_t *root, const struct marks *of, int of_area, int with_held)
{
    uint32_t page = first_page(of_area), words[3];
    uint8_t *at = root + 40;
    memset(root, 0, ROOT);
    memcpy(root, "eradisk1", 8);
    words[0] = 1;
    words[1] = geometry.block_sectors;
    memcpy(root + 8, words, 8);
    memcpy(root + 16, &geometry.sectors, 8);
    words[0] = of->era;
    words[1] = with_held ? 2 : 0;
    words[2] = of->archived;
    memcpy(root + 24, words, 12);
    for (uint32_t i = 0; i < geometry.array_pages + geometry.set_pages; i++, page++, at += 4)
        memcpy(at, &page, 4);
    for (uint32_t set = 0; set < of->archived; set++) {
        memcpy(at, &of->eras[of->order[set]], 4);
        at += 4;
        for (uint32_t i = 0; i < geometry.set_pages; i++, page++, at += 4)
            memcpy(at, &page, 4);
    }
}

static void put_set(uint32_t set, uint32_t page)
{
    for (uint32_t i = 0; i < geometry.set_pages; i++)
        write_at(metadata, (char *)marks.sets[set] + i * PAGE, PAGE, (uint64_t)(page + i) * PAGE);
}

/* The pages of the marks, into the least area that neither the committed nor the held root uses. */
static void put_pages(void)
{
    int to = 0;
    while (to == area || to == held_area)
        to++;
    uint32_t page = first_page(to);
    for (uint32_t i = 0; i < geometry.array_pages; i++, page++)
        write_at(metadata, marks.array + i * 1024, PAGE, (uint64_t)page * PAGE);
    put_set(marks.order[marks.archived], page);
    page += geometry.set_pages;
    for (uint32_t set = 0; set < marks.archived; set++, page += geometry.set_pages)
        put_set(marks.order[set], page);
    area = to;
}

/* Makes the marks those of the metadata disk: closes the other slot's gate, puts what is new, and opens that gate. */
static void commit(int new_pages, int new_held)
{
    static uint8_t gate[SECTOR], body[8 + ROOT], block[PAGE];
    int slot = 1 - active;
    uint64_t at = (uint64_t)slot * PAGE;
    if (!commits)
        return;
    if (may_be_open[slot]) {
        gate[0] = 0;
        write_at(metadata, gate, SECTOR, at);
        sync_of(metadata);
    }
    if (new_pages)
        put_pages();
    if (new_held) {
        make_root(block + 520, &held, held_area, 0);
        write_at(metadata, block, PAGE, 2 * PAGE);
    }
    sequence++;
    memcpy(body, &sequence, 8);
    make_root(body + 8, &marks, area, is_held);
    write_at(metadata, body, sizeof body, at + SECTOR);
    sync_of(metadata);
    gate[0] = 1;
    write_at(metadata, gate, SECTOR, at);
    sync_of(metadata);
    may_be_open[slot] = 1;
    active = slot;
}

static void get_pages(const uint8_t **numbers, uint32_t count, void *into)
{
    for (uint32_t i = 0, page; i < count; i++, *numbers += 4) {
        memcpy(&page, *numbers, 4);
        read_at(metadata, (char *)into + i * PAGE, PAGE, (uint64_t)page * PAGE);
    }
}

/* The marks of a root, and the area of its pages. */
static int get_marks(const uint8_t *root, struct marks *into)
{
    const uint8_t *at = root + 40;
    uint32_t first;
    if (memcmp(root, "eradisk1", 8) != 0 || memcmp(root + 12, &geometry.block_sectors, 4) != 0
        || memcmp(root + 16, &geometry.sectors, 8) != 0)
        stop("the metadata image is of another geometry");
    memcpy(&into->era, root + 24, 4);
    memcpy(&into->archived, root + 32, 4);
    memcpy(&first, at, 4);
    for (uint32_t i = 0; i <= MOST_SETS; i++)
        into->order[i] = i;
    into->eras[into->archived] = into->era;
    get_pages(&at, geometry.array_pages, into->array);
    get_pages(&at, geometry.set_pages, into->sets[into->archived]);
    for (uint32_t set = 0; set < into->archived; set++) {
        memcpy(&into->eras[set], at, 4);
        at += 4;
        get_pages(&at, geometry.set_pages, into->sets[set]);
    }
    return (int)((first - 3) / geometry.root_pages);
}

/* Formats the metadata disk, or begins the next era on what it holds. */
static void open_metadata(const char *name)
{
    static uint8_t slots[2][PAGE], block[PAGE];
    uint64_t sectors, numbers[2];
    metadata = open_image(name, &sectors);
    metadata_pages = sectors / (PAGE / SECTOR);
    if (metadata_pages < 3 + 3 * (uint64_t)geometry.root_pages)
        stop("the metadata image is too small");
    sync_of(metadata);
    for (uint64_t i = 0; i < 2; i++) {
        read_at(metadata, slots[i], PAGE, i * PAGE);
        may_be_open[i] = slots[i][0] == 1;
        memcpy(&numbers[i], slots[i] + SECTOR, 8);
    }
    if (may_be_open[0] || may_be_open[1]) {
        active = may_be_open[1] && (!may_be_open[0] || numbers[1] > numbers[0]);
        sequence = numbers[active];
        area = get_marks(slots[active] + SECTOR + 8, &marks);
        is_held = slots[active][SECTOR + 8 + 28] == 2;
        if (is_held) {
            read_at(metadata, block, PAGE, 2 * PAGE);
            held_area = get_marks(block + SECTOR + 8, &held);
        }
        roll();
    }
    commit(1, 0);
}

/* ---- the stream ---- */

enum kind { WRITE, READ, CHECKPOINT, TAKE_SNAP, DROP_SNAP, DIGEST, STATUS, LIST, LIST_SNAP };

struct command {
    enum kind kind;
    uint32_t line;
    uint64_t number;  /* the sector, or the era */
    uint32_t bytes;   /* that are written or read */
    uint8_t *payload;
};

static struct command round_commands[ROUND_COMMANDS];
static uint32_t round_count, session_count, lines;
static uint64_t round_payload, session_payload;

static int decimal(const char *word, size_t count, uint64_t limit, uint64_t *value)
{
    uint64_t sum = 0;
    if (count == 0 || (count > 1 && word[0] == '0'))
        return 0;
    for (size_t i = 0; i < count; i++) {
        uint64_t digit = (uint64_t)(word[i] - '0');
        if (word[i] < '0' || word[i] > '9' || sum > (UINT64_MAX - digit) / 10)
            return 0;
        sum = sum * 10 + digit;
    }
    *value = sum;
    return sum <= limit;
}

static uint8_t digit_of[256];  /* 16 for what is no hexadecimal digit */

static void know_digits(void)
{
    memset(digit_of, 16, sizeof digit_of);
    for (int i = 0; i < 10; i++)
        digit_of['0' + i] = (uint8_t)i;
    for (int i = 0; i < 6; i++)
        digit_of['a' + i] = digit_of['A' + i] = (uint8_t)(10 + i);
}

static int read_payload(const char *digits, size_t count, struct command *into)
{
    uint8_t wrong = 0;
    if (count == 0 || count % (2 * SECTOR) != 0 || count > 2 * 128 * SECTOR)
        return 0;
    into->bytes = (uint32_t)(count / 2);
    into->payload = take(into->bytes);
    for (size_t i = 0; i < into->bytes; i++) {
        uint8_t high = digit_of[(uint8_t)digits[2 * i]], low = digit_of[(uint8_t)digits[2 * i + 1]];
        wrong |= high | low;
        into->payload[i] = (uint8_t)(high << 4 | low);
    }
    return (wrong & 16) == 0;
}

/* Whether the rest of a line begins with this text, which is then behind it. */
static int passes(const char **rest, size_t *count, const char *prefix)
{
    size_t length = strlen(prefix);
    if (*count < length || memcmp(*rest, prefix, length) != 0)
        return 0;
    *rest += length;
    *count -= length;
    return 1;
}

static int read_two(const char *rest, size_t count, struct command *into)
{
    const char *space = memchr(rest, ' ', count);
    uint64_t sectors;
    if (!space || !decimal(rest, (size_t)(space - rest), UINT64_MAX, &into->number))
        return 0;
    count -= (size_t)(space + 1 - rest);
    if (into->kind == WRITE)
        return read_payload(space + 1, count, into);
    if (!decimal(space + 1, count, 128, &sectors) || sectors == 0)
        return 0;
    into->bytes = (uint32_t)sectors * SECTOR;
    return 1;
}

static int read_command(const char *rest, size_t count, struct command *into)
{
    static const struct {
        const char *words;
        enum kind kind;
    } forms[] = {
        {"write ", WRITE}, {"read ", READ}, {"list ", LIST}, {"list_snap ", LIST_SNAP},
        {"checkpoint", CHECKPOINT}, {"take_metadata_snap", TAKE_SNAP},
        {"drop_metadata_snap", DROP_SNAP}, {"digest", DIGEST}, {"status", STATUS},
    };
    if (!passes(&rest, &count, "0 "))
        return 0;
    for (size_t i = 0; i < sizeof forms / sizeof forms[0]; i++) {
        if (!passes(&rest, &count, forms[i].words))
            continue;
        into->kind = forms[i].kind;
        if (into->kind == WRITE || into->kind == READ)
            return read_two(rest, count, into);
        if (into->kind == LIST || into->kind == LIST_SNAP)
            return decimal(rest, count, UINT32_MAX, &into->number);
        return count == 0;
    }
    return 0;
}

/* ---- the commands ---- */

static int origin = -1;
static uint64_t places;  /* of the events */

static void event(char letter)
{
    char words[] = {' ', letter, 0};
    text(words);
    number(places++);
}

/* The block of whole sectors that lie in one. */
static int place_of(const struct command *command, uint32_t *block)
{
    uint64_t count = command->bytes / SECTOR, first = command->number;
    if (first >= geometry.sectors || count > geometry.sectors - first)
        return 0;
    *block = (uint32_t)(first / geometry.block_sectors);
    return (first + count - 1) / geometry.block_sectors == *block;
}

static void run_write(const struct command *command)
{
    uint32_t block;
    if (!place_of(command, &block)) {
        text(" range");
        return;
    }
    text(" ok");
    uint64_t *word = current_set() + block / 64, bit = UINT64_C(1) << (block % 64);
    if (!(*word & bit)) {
        *word |= bit;
        commit(1, 0);
        event('t');
        event('m');
    }
    write_at(origin, command->payload, command->bytes, command->number * SECTOR);
    sync_of(origin);
    event('g');
    event('d');
}

static void run_read(const struct command *command)
{
    static uint8_t bytes[128 * SECTOR];
    uint32_t block;
    if (!place_of(command, &block)) {
        text(" range");
        return;
    }
    read_at(origin, bytes, command->bytes, command->number * SECTOR);
    text(" data ");
    hexadecimal(bytes, command->bytes);
    event('r');
}

static void run_checkpoint(void)
{
    if (marks.era == UINT32_MAX) {
        text(" end");
        event('f');
        return;
    }
    roll();
    commit(1, 0);
    text(" era ");
    number(marks.era);
    event('e');
}

static void run_snap(int taken)
{
    if (taken && is_held) {
        text(" held 2");
        event('f');
    } else if (taken) {
        held = marks;
        is_held = 1;
        held_area = area;
        commit(0, 1);
        text(" snap 2");
        event('p');
    } else if (is_held) {
        is_held = 0;
        commit(0, 0);
        held_area = -1;
        text(" ok");
        event('x');
    } else {
        text(" none");
        event('f');
    }
}

/* Whether a page of the array lacks the era of one of the set's blocks. */
static int lacks(uint32_t set, uint32_t page)
{
    for (uint32_t word = page * 16; word < page * 16 + 16; word++)
        for (uint64_t bits = marks.sets[set][word]; bits; bits &= bits - 1)
            if (marks.array[word * 64 + (uint32_t)__builtin_ctzll(bits)] != marks.eras[set])
                return 1;
    return 0;
}

static void run_digest(void)
{
    uint32_t oldest = marks.order[0], page = 0;
    if (!marks.archived) {
        text(" idle");
        event('f');
        return;
    }
    while (page < geometry.array_pages && !lacks(oldest, page))
        page++;
    if (page < geometry.array_pages)
        transcribe(oldest, page);
    else
        drop_oldest();
    commit(1, 0);
    text(" digest ");
    number(marks.eras[oldest]);
    text(" ");
    if (page < geometry.array_pages)
        number(page);
    else
        text("-");
    event('a');
}

static void run_status(void)
{
    uint64_t used = 2 + pages_of(&marks);
    if (is_held)
        used += 1 + (held_area == area ? 0 : pages_of(&held));
    text(" status 8 ");
    number(used);
    text("/");
    number(metadata_pages);
    text(" ");
    number(marks.era);
    text(is_held ? " 2" : " -");
    event('q');
}

static void run_list(const struct command *command)
{
    if (command->kind == LIST_SNAP && !is_held) {
        text(" none");
        event('f');
        return;
    }
    text(" blocks ");
    give_runs(command->kind == LIST ? &marks : &held, (uint32_t)command->number);
    event('l');
}

static void run_command(const struct command *command)
{
    number(command->line);
    switch (command->kind) {
    case WRITE: run_write(command); break;
    case READ: run_read(command); break;
    case CHECKPOINT: run_checkpoint(); break;
    case TAKE_SNAP: run_snap(1); break;
    case DROP_SNAP: run_snap(0); break;
    case DIGEST: run_digest(); break;
    case STATUS: run_status(); break;
    case LIST:
    case LIST_SNAP: run_list(command); break;
    }
    text("\n");
}

static void run_round(void)
{
    for (uint32_t i = 0; i < round_count; i++) {
        run_command(&round_commands[i]);
        free(round_commands[i].payload);
    }
    give_out();
    round_count = 0;
    round_payload = 0;
}

/* ---- the session ---- */

static void end_session(void)
{
    text("end ");
    number(marks.era);
    text(" ");
    number(places);
    text("\n");
    give_out();
}

static void refuse_line(void)
{
    text("line ");
    number(lines + 1);
    text(" NotYet\n");
    end_session();
    exit(3);
}

static void take_line(const char *line, size_t count)
{
    struct command command = {.line = lines + 1};
    if (count > LONGEST_LINE || lines == SESSION_LINES)
        refuse_line();
    if (count == 3 && memcmp(line, "run", 3) == 0) {
        run_round();
        lines++;
        return;
    }
    if (!read_command(line, count, &command))
        refuse_line();
    round_payload += command.bytes;
    session_payload += command.bytes;
    if (round_count == ROUND_COMMANDS || round_payload > ROUND_PAYLOAD
        || session_count == SESSION_COMMANDS || session_payload > SESSION_PAYLOAD)
        refuse_line();
    round_commands[round_count++] = command;
    session_count++;
    lines++;
}

/* Takes the lines of standard input, which come in pieces. */
static void take_lines(void)
{
    static char pieces[65536], line[LONGEST_LINE];
    size_t kept = 0;
    for (;;) {
        ssize_t got = read(0, pieces, sizeof pieces);
        if (got < 0 && errno == EINTR)
            continue;
        if (got < 0)
            stop("standard input");
        if (got == 0)
            break;
        const char *at = pieces, *end = pieces + got, *newline;
        while ((newline = memchr(at, '\n', (size_t)(end - at)))) {
            size_t count = (size_t)(newline - at);
            if (kept + count > LONGEST_LINE)
                refuse_line();
            if (kept) {
                memcpy(line + kept, at, count);
                take_line(line, kept + count);
                kept = 0;
            } else {
                take_line(at, count);
            }
            at = newline + 1;
        }
        if (kept + (size_t)(end - at) > LONGEST_LINE)
            refuse_line();
        memcpy(line + kept, at, (size_t)(end - at));
        kept += (size_t)(end - at);
    }
    if (kept)
        take_line(line, kept);
    run_round();
}

static int read_table(char *line, const char **names)
{
    char *words[6];
    size_t count = 0;
    uint64_t block_sectors;
    for (char *word; (word = strsep(&line, " ")); count++) {
        if (count == 6 || !*word)
            return 0;
        words[count] = word;
    }
    if (count != 6 || strcmp(words[0], "0") != 0 || strcmp(words[2], "era") != 0
        || !decimal(words[1], strlen(words[1]), UINT64_MAX - 128, &geometry.sectors)
        || !decimal(words[5], strlen(words[5]), 128, &block_sectors) || block_sectors % 8 != 0
        || block_sectors == 0 || geometry.sectors == 0)
        return 0;
    uint64_t blocks = (geometry.sectors + block_sectors - 1) / block_sectors;
    geometry.block_sectors = (uint32_t)block_sectors;
    geometry.blocks = (uint32_t)blocks;
    geometry.array_pages = (geometry.blocks + 1023) / 1024;
    geometry.set_pages = (geometry.blocks + 32767) / 32768;
    geometry.root_pages = geometry.array_pages + 17 * geometry.set_pages;
    names[0] = words[3];
    names[1] = words[4];
    return blocks <= MOST_BLOCKS;
}

int main(int count, char **words)
{
    const char *names[2];
    uint64_t sectors;
    if (count != 3 || (strcmp(words[1], "plain") != 0 && strcmp(words[1], "commit") != 0)
        || !read_table(words[2], names)) {
        fputs("usage: baseline plain|commit \"0 <length> era <metadata> <origin> <block size>\"\n", stderr);
        return 2;
    }
    commits = strcmp(words[1], "commit") == 0;
    know_digits();
    origin = open_image(names[1], &sectors);
    if (sectors < geometry.sectors)
        stop("the origin image is too small");
    begin_marks(1);
    if (commits) {
        uint32_t stripe = (geometry.blocks + STRIPES - 1) / STRIPES;
        for (uint32_t first = 0; first < geometry.blocks; first += stripe)
            sync_of(origin);
        open_metadata(names[0]);
    }
    text("open ");
    number(marks.era);
    text(" ");
    number(geometry.blocks);
    text("\n");
    give_out();
    take_lines();
    end_session();
    return 0;
}
