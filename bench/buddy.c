/* Runs a script, and a netlist where one is given, by the library BuDDy, and says what `adiar run` says of them in a
 * new folder. Texts that adiar refuses aren't expected here: this ends with 2 where it can't go on with one.
 *
 * buddy SCRIPT [NETLIST]      cc -O2 -o buddy buddy.c -lbdd
 *
 * The variables of BuDDy are those of the script in its order, and nothing is reordered. The table of nodes begins with
 * 65,536 and doubles when it is full, up to 2^24 at once; each cache has a quarter as many entries.
 */
#include <bdd.h>
#include <stdint.h>
#include <stdio.h>
#include <stdlib.h>
#include <string.h>

typedef struct { const char *at; size_t len; } Word;
typedef struct { Word *items; size_t len, room; } Words;
typedef struct { Word key; int value; } Pair;
typedef struct { Pair *pairs; size_t len, room; } Map;
typedef struct { const char *at, *end; int line; } Text;
typedef struct { int line; size_t first, count; } Request;
/* A block's words stand in `net_words` from `reads` on, its rows' words from `rows` on. */
typedef struct { size_t reads, read_count, rows, row_count; } Block;

static void fail(const char *what, int line)
{
    fprintf(stderr, "buddy: line %d: %s\n", line, what);
    exit(2);
}

static void *grow(void *old, size_t bytes)
{
    void *new = realloc(old, bytes);
    if (!new && bytes) fail("there is no memory", 0);
    return new;
}

static void push(Words *words, Word word)
{
    if (words->len == words->room)
        words->items = grow(words->items, (words->room = words->room * 2 + 64) * sizeof(Word));
    words->items[words->len++] = word;
}

static int is(Word word, const char *text)
{
    return word.len == strlen(text) && !memcmp(word.at, text, word.len);
}

/* Names to numbers, by open addressing. */
static Pair *slot(Map *map, Word key)
{
    uint64_t hash = 14695981039346656037u;
    for (size_t i = 0; i < key.len; i++) hash = (hash ^ (unsigned char)key.at[i]) * 1099511628211u;
    size_t k = (hash ^ hash >> 32) & (map->room - 1);
    while (map->pairs[k].key.at
           && (map->pairs[k].key.len != key.len || memcmp(map->pairs[k].key.at, key.at, key.len)))
        k = (k + 1) & (map->room - 1);
    return &map->pairs[k];
}

static void put(Map *map, Word key, int value)
{
    if (map->len * 2 >= map->room) {
        Map new = {calloc(map->room * 2 + 64, sizeof(Pair)), map->len, 64};
        while (new.room < map->room * 2) new.room *= 2;
        if (!new.pairs) fail("there is no memory", 0);
        for (size_t i = 0; i < map->room; i++)
            if (map->pairs[i].key.at) *slot(&new, map->pairs[i].key) = map->pairs[i];
        free(map->pairs);
        *map = new;
    }
    Pair *pair = slot(map, key);
    map->len += !pair->key.at;
    *pair = (Pair){key, value};
}

static int get(Map *map, Word key)
{
    Pair *pair = map->room ? slot(map, key) : NULL;
    return pair && pair->key.at ? pair->value : -1;
}

static Text fetch(const char *path)
{
    FILE *file = fopen(path, "rb");
    char *bytes = NULL;
    size_t len = 0, got;
    if (!file) fail("a text can't be opened", 0);
    do {
        bytes = grow(bytes, len + 65536);
        len += got = fread(bytes + len, 1, 65536, file);
    } while (got);
    fclose(file);
    return (Text){bytes, bytes + len, 0};
}

static int parts(char c)
{
    return c == ' ' || c == '\t' || c == '\r';
}

/* Puts the words of the next line behind the others, and answers its number, or 0 at the end. With `joins` a line that
 * ends with a backslash goes on with the next one. */
static int next_line(Text *text, Words *words, int joins)
{
    int first = 0, more = 1;
    while (more && text->at < text->end) {
        const char *stop = memchr(text->at, '\n', text->end - text->at);
        const char *at = text->at, *end = stop ? stop : text->end;
        const char *hash = memchr(at, '#', end - at);
        text->at = stop ? stop + 1 : text->end;
        text->line++;
        if (!first) first = text->line;
        if (hash) end = hash;
        while (end > at && parts(end[-1])) end--;
        more = joins && end > at && end[-1] == '\\';
        if (more) end--;
        while (at < end) {
            const char *from = at;
            while (at < end && !parts(*at)) at++;
            if (at > from) push(words, (Word){from, at - from});
            while (at < end && parts(*at)) at++;
        }
    }
    return first;
}

static Words net_words, inputs;
static Block *blocks;
static size_t block_count;
static Map drivers; /* the names of blocks' outputs */

static void read_netlist(const char *path)
{
    Text text = fetch(path);
    size_t room = 0, from = 0;
    int line;
    while ((line = next_line(&text, &net_words, 1))) {
        Word *words = net_words.items + from;
        size_t count = net_words.len - from;
        if (count && is(words[0], ".inputs")) {
            for (size_t i = 1; i < count; i++) push(&inputs, words[i]);
        } else if (count && is(words[0], ".names")) {
            if (count < 2) fail("a block without an output", line);
            if (block_count == room) blocks = grow(blocks, (room = room * 2 + 64) * sizeof(Block));
            blocks[block_count] = (Block){from + 1, count - 2, net_words.len, 0};
            put(&drivers, words[count - 1], block_count++);
        } else if (count && words[0].at[0] != '.') {
            if (!block_count) fail("a row without a block", line);
            blocks[block_count - 1].row_count++;
        }
        from = net_words.len;
    }
}

static Words words;       /* those of the script */
static Request *requests;
static size_t request_count;
static Map variables, diagrams;
static int variable_count;
static BDD *named;
static size_t named_count;

static void add_variable(Word word)
{
    put(&variables, word, variable_count++);
}

/* Reads the script, and answers how many lines it says. */
static long read_script(const char *path)
{
    Text text = fetch(path);
    size_t room = 0, from = 0;
    long said = 0;
    int line;
    while ((line = next_line(&text, &words, 0))) {
        Word *here = words.items + from;
        size_t count = words.len - from;
        if (count && is(here[0], "vars")) {
            for (size_t i = 1; i < count; i++) add_variable(here[i]);
        } else if (count && is(here[0], "inputs")) {
            for (size_t i = 0; i < inputs.len; i++) add_variable(inputs.items[i]);
        } else if (count) {
            if (request_count == room) requests = grow(requests, (room = room * 2 + 64) * sizeof(Request));
            requests[request_count++] = (Request){line, from, count};
            said += is(here[0], "net") ? (count - 1) / 2 : 1;
        }
        from = words.len;
    }
    return said;
}

static BDD variable(Word word, int line)
{
    int level = get(&variables, word);
    if (level < 0) fail("there is no such variable", line);
    return bdd_ithvar(level);
}

static int place(Word word, int line)
{
    int at = get(&diagrams, word);
    if (at < 0) fail("there is no such diagram", line);
    return at;
}

static BDD operand(Word word, int line)
{
    return named[place(word, line)];
}

/* Gives a diagram a name, and a reference that it keeps. */
static void name(Word word, BDD diagram)
{
    static size_t room = 0;
    if (named_count == room) named = grow(named, (room = room * 2 + 64) * sizeof(BDD));
    put(&diagrams, word, named_count);
    named[named_count++] = diagram;
}

/* Gives up one reference for another. */
static BDD instead(BDD new, BDD old)
{
    bdd_addref(new);
    bdd_delref(old);
    return new;
}

static BDD *made; /* the diagrams of blocks that the line at hand has made */
static char *is_made;

/* A block's diagram from those of its inputs, row by row and column by column; it keeps a reference. */
static BDD block_diagram(const Block *block, int line)
{
    BDD sum = bdd_addref(bddfalse);
    Word value = {"1", 1};
    for (size_t r = 0; r < block->row_count; r++) {
        size_t width = block->read_count ? 2 : 1;
        Word *row = net_words.items + block->rows + r * width;
        BDD cube = bdd_addref(bddtrue);
        for (size_t i = 0; i < block->read_count; i++) {
            Word read = net_words.items[block->reads + i];
            int driver = get(&drivers, read);
            BDD signal = driver < 0 ? variable(read, line) : made[driver];
            if (row[0].at[i] == '1') cube = instead(bdd_apply(cube, signal, bddop_and), cube);
            if (row[0].at[i] == '0') cube = instead(bdd_apply(cube, signal, bddop_diff), cube);
        }
        value = row[width - 1];
        sum = instead(bdd_apply(sum, cube, bddop_or), sum);
        bdd_delref(cube);
    }
    return is(value, "0") ? instead(bdd_not(sum), sum) : sum;
}

/* Makes the diagram of a block, what it reads before it. */
static void make_block(int driver, int line)
{
    static int *waiting;
    static size_t room;
    size_t depth = 0;
    for (;;) {
        if (depth == room) waiting = grow(waiting, (room = room * 2 + 64) * sizeof(int));
        waiting[depth++] = driver;
        for (int missing = 0; depth && !missing;) {
            const Block *block = &blocks[waiting[depth - 1]];
            for (size_t i = 0; i < block->read_count && !missing; i++) {
                driver = get(&drivers, net_words.items[block->reads + i]);
                missing = driver >= 0 && !is_made[driver];
            }
            if (missing) break;
            depth--;
            made[waiting[depth]] = block_diagram(block, line);
            is_made[waiting[depth]] = 1;
        }
        if (!depth) return;
    }
}

/* The diagrams of a line's signals, each block that they depend on made once. */
static void make_signals(const Request *request, const Word *here)
{
    made = grow(made, (block_count + 1) * sizeof(BDD));
    is_made = grow(is_made, block_count + 1);
    memset(is_made, 0, block_count + 1);
    for (size_t k = 1; k + 1 < request->count; k += 2) {
        int driver = get(&drivers, here[k + 1]);
        if (driver >= 0 && !is_made[driver]) make_block(driver, request->line);
        name(here[k], bdd_addref(driver < 0 ? variable(here[k + 1], request->line) : made[driver]));
    }
    size_t first = named_count - (request->count - 1) / 2;
    for (size_t k = first; k < named_count; k++) printf("%d: nodes %d\n", request->line, bdd_nodecount(named[k]));
    for (size_t k = 0; k < block_count; k++)
        if (is_made[k]) bdd_delref(made[k]);
}

/* The operators by their words, with BuDDy's numbers. */
static int operator_of(Word word)
{
    static const struct { const char *word; int op; } known[] = {
        {"and", bddop_and}, {"or", bddop_or}, {"xor", bddop_xor}, {"nand", bddop_nand},
        {"nor", bddop_nor}, {"xnor", bddop_biimp}, {"imp", bddop_imp},
    };
    for (size_t i = 0; i < sizeof known / sizeof *known; i++)
        if (is(word, known[i].word)) return known[i].op;
    return -1;
}

/* The diagram of a request that makes one. */
static BDD make(const Word *w, int line)
{
    if (is(w[0], "const")) return is(w[2], "1") ? bddtrue : bddfalse;
    if (is(w[0], "var")) return variable(w[2], line);
    if (is(w[0], "not")) return bdd_not(operand(w[2], line));
    if (is(w[0], "exists")) return bdd_exist(operand(w[2], line), variable(w[3], line));
    if (is(w[0], "forall")) return bdd_forall(operand(w[2], line), variable(w[3], line));
    if (is(w[0], "ite")) return bdd_ite(operand(w[2], line), operand(w[3], line), operand(w[4], line));
    if (is(w[0], "restrict")) {
        int level = bdd_var(variable(w[3], line));
        return bdd_restrict(operand(w[2], line), is(w[4], "1") ? bdd_ithvar(level) : bdd_nithvar(level));
    }
    int op = operator_of(w[0]);
    if (op < 0) fail("there is no such request", line);
    return bdd_apply(operand(w[2], line), operand(w[3], line), op);
}

static int value_at(BDD diagram, Word bits)
{
    while (diagram != bddtrue && diagram != bddfalse)
        diagram = bits.at[bdd_var(diagram)] == '1' ? bdd_high(diagram) : bdd_low(diagram);
    return diagram == bddtrue;
}

static void run(const Request *request)
{
    const Word *w = words.items + request->first;
    int line = request->line;
    if (is(w[0], "net")) {
        make_signals(request, w);
    } else if (is(w[0], "drop")) {
        bdd_delref(operand(w[1], line));
        printf("%d: dropped\n", line);
    } else if (is(w[0], "same")) {
        printf("%d: %s\n", line, operand(w[1], line) == operand(w[2], line) ? "yes" : "no");
    } else if (is(w[0], "leq")) {
        BDD without = bdd_apply(operand(w[1], line), operand(w[2], line), bddop_diff);
        printf("%d: %s\n", line, without == bddfalse ? "yes" : "no");
    } else if (is(w[0], "eval")) {
        Word bits = request->count > 2 ? w[2] : (Word){"", 0};
        printf("%d: %d\n", line, value_at(operand(w[1], line), bits));
    } else if (is(w[0], "size")) {
        printf("%d: nodes %d\n", line, bdd_nodecount(operand(w[1], line)));
    } else {
        BDD diagram = bdd_addref(make(w, line));
        name(w[1], diagram);
        printf("%d: nodes %d\n", line, bdd_nodecount(diagram));
    }
}

int main(int count, char **args)
{
    if (count < 2 || count > 3) fail("usage: buddy SCRIPT [NETLIST]", 0);
    if (count == 3) read_netlist(args[2]);
    long said = read_script(args[1]);
    bdd_init(65536, 16384);
    bdd_gbc_hook(NULL);
    bdd_setmaxincrease(1 << 24);
    bdd_setcacheratio(4);
    bdd_setvarnum(variable_count ? variable_count : 1);
    printf("start %ld\n", said);
    for (size_t i = 0; i < request_count; i++) run(&requests[i]);
    printf("done\n");
    return fflush(stdout) ? 1 : 0;
}
