/* A plain reader of the language of the ontologies, to compare the built program with.
   It reads one file whole, makes the tree of its forms and keeps it: for each form one block for the node and one
   for its text, or for a list one for its parts. It prints the number of forms and of nodes, or the first fault. */
#include <stdint.h>
#include <stdio.h>
#include <stdlib.h>
#include <string.h>

enum kind { WORD, VARIABLE, ROW, NUMERAL, STRING, LIST };

enum fault { BAD_BYTE = 1, OPEN_STRING, OPEN_LIST, STRAY_CLOSE, BAD_ESCAPE, BAD_WORD, TOO_DEEP, LOGIC_SHAPE };

enum { DEEPEST = 200 };

struct node {
    union {
        char *text;
        struct node **parts;
    } is;
    uint32_t length;
    uint8_t kind;
};

struct form {
    struct node *node;
    uint32_t line, column;
};

/* where a list was opened: its first part on the stack, and its place */
struct opening {
    size_t first;
    uint32_t line, column;
};

struct reader {
    const unsigned char *at, *end, *line_start;
    uint32_t line;
    struct node **stack;
    size_t count, room;
    struct opening open[DEEPEST];
    unsigned depth;
    struct form *forms;
    size_t form_count, form_room;
    size_t nodes;
    uint32_t bad_line, bad_column; /* the first ill-shaped form, where bad_line isn't 0 */
};

enum { BLANK = 1, CHUNK = 2, NAME = 4, DIGIT = 8, LETTER = 16, INSIDE = 32 };

static uint8_t class_of[256];

static void fill_classes(void) {
    for (int byte = 0; byte < 256; byte++) {
        int letter = (byte >= 'A' && byte <= 'Z') || (byte >= 'a' && byte <= 'z');
        int digit = byte >= '0' && byte <= '9';
        int blank = byte == ' ' || byte == '\t' || byte == '\n' || byte == '\r' || byte == '\f';
        int class = 0;
        if (blank) class |= BLANK;
        if (byte > 0x20 && byte < 0x7F && !strchr("();\"", byte)) class |= CHUNK;
        if (letter || digit || byte == '-' || byte == '_' || byte == '.') class |= NAME;
        if (digit) class |= DIGIT;
        if (letter) class |= LETTER;
        if ((byte >= 0x20 || blank) && byte != 0x7F && byte != '"' && byte != '\\') class |= INSIDE;
        class_of[byte] = (uint8_t)class;
    }
}

static void *taken(void *block) {
    if (!block) {
        fputs("no memory\n", stderr);
        exit(9);
    }
    return block;
}

static void fail(enum fault code, uint32_t line, uint32_t column) {
    printf("fault %d %u:%u\n", code, line, column);
    exit(1);
}

static uint32_t column_of(const struct reader *r, const unsigned char *byte) {
    return (uint32_t)(byte - r->line_start) + 1;
}

static void fail_at(const struct reader *r, enum fault code, const unsigned char *byte) {
    fail(code, r->line, column_of(r, byte));
}

static struct node *new_node(struct reader *r, enum kind kind, uint32_t length) {
    struct node *node = taken(malloc(sizeof *node));
    node->kind = (uint8_t)kind;
    node->length = length;
    r->nodes++;
    return node;
}

static struct node *copied(struct reader *r, enum kind kind, const unsigned char *from, size_t length) {
    struct node *node = new_node(r, kind, (uint32_t)length);
    node->is.text = taken(malloc(length + 1));
    memcpy(node->is.text, from, length);
    node->is.text[length] = 0;
    return node;
}

static int is_word(const struct node *node, const char *text) {
    return node->kind == WORD && strcmp(node->is.text, text) == 0;
}

static int is_variable_list(const struct node *list) {
    if (list->kind != LIST) return 0;
    for (uint32_t i = 0; i < list->length; i++)
        if (list->is.parts[i]->kind != VARIABLE && list->is.parts[i]->kind != ROW) return 0;
    return 1;
}

static int is_quantifier(const struct node *head) {
    return is_word(head, "forall") || is_word(head, "exists");
}

/* whether a list that isn't empty has a head that may head it, and as many parts as the head takes */
static int is_shaped(const struct node *list) {
    const struct node *head = list->is.parts[0];
    uint32_t parts = list->length - 1;
    if (head->kind == VARIABLE) return 1;
    if (head->kind != WORD) return 0;
    switch (head->is.text[0]) {
    case 'n': return !is_word(head, "not") || parts == 1;
    case 'a': return !is_word(head, "and") || parts >= 1;
    case 'o': return !is_word(head, "or") || parts >= 1;
    case '=':
    case '<': return parts == 2;
    case 'f':
    case 'e': return !is_quantifier(head) || (parts == 2 && is_variable_list(list->is.parts[1]));
    default: return 1;
    }
}

static void note_bad(struct reader *r, uint32_t line, uint32_t column) {
    if (r->bad_line && (r->bad_line < line || (r->bad_line == line && r->bad_column < column))) return;
    r->bad_line = line;
    r->bad_column = column;
}

static void add_form(struct reader *r, struct node *node, uint32_t line, uint32_t column) {
    if (r->form_count == r->form_room) {
        r->form_room = r->form_room ? 2 * r->form_room : 64;
        r->forms = taken(realloc(r->forms, r->form_room * sizeof *r->forms));
    }
    r->forms[r->form_count++] = (struct form){node, line, column};
    if (node->kind != LIST) note_bad(r, line, column);
}

static void add_part(struct reader *r, struct node *node) {
    if (r->count == r->room) {
        r->room = r->room ? 2 * r->room : 64;
        r->stack = taken(realloc(r->stack, r->room * sizeof *r->stack));
    }
    r->stack[r->count++] = node;
}

static void add(struct reader *r, struct node *node, uint32_t line, uint32_t column) {
    if (r->depth) add_part(r, node);
    else add_form(r, node, line, column);
}

static void open_list(struct reader *r) {
    if (r->depth == DEEPEST) fail_at(r, TOO_DEEP, r->at);
    r->open[r->depth++] = (struct opening){r->count, r->line, column_of(r, r->at)};
    r->at++;
}

/* whether the list that is closed now is the variable list of a quantifier, which has no head */
static int is_bound_list(const struct reader *r, const struct opening *opened) {
    if (!r->depth) return 0;
    size_t first = r->open[r->depth - 1].first;
    return opened->first == first + 1 && is_quantifier(r->stack[first]);
}

static void close_list(struct reader *r) {
    if (!r->depth) fail_at(r, STRAY_CLOSE, r->at);
    struct opening opened = r->open[--r->depth];
    size_t length = r->count - opened.first;
    struct node *list = new_node(r, LIST, (uint32_t)length);
    list->is.parts = taken(malloc((length ? length : 1) * sizeof *list->is.parts));
    if (length) memcpy(list->is.parts, r->stack + opened.first, length * sizeof *list->is.parts);
    r->count = opened.first;
    if (!length || (!is_shaped(list) && !is_bound_list(r, &opened))) note_bad(r, opened.line, opened.column);
    add(r, list, opened.line, opened.column);
    r->at++;
}

static size_t digits(const unsigned char *at, const unsigned char *end) {
    const unsigned char *from = at;
    while (at < end && class_of[*at] & DIGIT) at++;
    return (size_t)(at - from);
}

static int is_numeral(const unsigned char *at, const unsigned char *end) {
    size_t count;
    if (at < end && *at == '-') at++;
    if (!(count = digits(at, end))) return 0;
    at += count;
    if (at < end && *at == '.') {
        if (!(count = digits(++at, end))) return 0;
        at += count;
    }
    if (at < end && (*at == 'e' || *at == 'E')) {
        at++;
        if (at < end && (*at == '+' || *at == '-')) at++;
        if (!(count = digits(at, end))) return 0;
        at += count;
    }
    return at == end;
}

static int is_name(const unsigned char *at, const unsigned char *end) {
    if (at == end) return 0;
    while (at < end && class_of[*at] & NAME) at++;
    return at == end;
}

static int is_arrow(const unsigned char *at, size_t length) {
    return (length == 2 && !memcmp(at, "=>", 2)) || (length == 3 && !memcmp(at, "<=>", 3));
}

static void read_chunk(struct reader *r) {
    const unsigned char *from = r->at, *end = r->at;
    while (end < r->end && class_of[*end] & CHUNK) end++;
    size_t length = (size_t)(end - from);
    struct node *node;
    if (class_of[*from] & LETTER && is_name(from, end)) node = copied(r, WORD, from, length);
    else if (*from == '?' && is_name(from + 1, end)) node = copied(r, VARIABLE, from + 1, length - 1);
    else if (*from == '@' && is_name(from + 1, end)) node = copied(r, ROW, from + 1, length - 1);
    else if (is_arrow(from, length)) node = copied(r, WORD, from, length);
    else if (is_numeral(from, end)) node = copied(r, NUMERAL, from, length);
    else { fail_at(r, BAD_WORD, from); return; }
    add(r, node, r->line, column_of(r, from));
    r->at = end;
}

static void unescape(struct node *node) {
    char *to = node->is.text, *from = node->is.text, *end = from + node->length;
    while (from < end) {
        if (*from == '\\') from++;
        *to++ = *from++;
    }
    *to = 0;
    node->length = (uint32_t)(to - node->is.text);
}

static void read_string(struct reader *r) {
    uint32_t line = r->line, column = column_of(r, r->at);
    const unsigned char *from = ++r->at;
    size_t escapes = 0;
    for (;;) {
        while (r->at < r->end && class_of[*r->at] & INSIDE) {
            if (*r->at == '\n') {
                r->line++;
                r->line_start = r->at + 1;
            }
            r->at++;
        }
        if (r->at == r->end) fail(OPEN_STRING, line, column);
        if (*r->at == '"') break;
        if (*r->at != '\\') fail_at(r, BAD_BYTE, r->at);
        if (r->at + 1 == r->end) fail(OPEN_STRING, line, column);
        if (r->at[1] != '"' && r->at[1] != '\\') fail_at(r, BAD_ESCAPE, r->at);
        escapes++;
        r->at += 2;
    }
    struct node *node = copied(r, STRING, from, (size_t)(r->at - from));
    if (escapes) unescape(node);
    r->at++;
    add(r, node, line, column);
}

static void skip_blank(struct reader *r) {
    if (*r->at == '\n') {
        r->line++;
        r->line_start = r->at + 1;
    }
    r->at++;
}

static void skip_comment(struct reader *r) {
    const unsigned char *stop = memchr(r->at, '\n', (size_t)(r->end - r->at));
    r->at = stop ? stop : r->end;
}

static void read_forms(struct reader *r) {
    while (r->at < r->end) {
        unsigned char byte = *r->at;
        if (class_of[byte] & BLANK) skip_blank(r);
        else if (class_of[byte] & CHUNK) read_chunk(r);
        else if (byte == '(') open_list(r);
        else if (byte == ')') close_list(r);
        else if (byte == '"') read_string(r);
        else if (byte == ';') skip_comment(r);
        else fail_at(r, BAD_BYTE, r->at);
    }
    if (r->depth) fail(OPEN_LIST, r->open[0].line, r->open[0].column);
    if (r->bad_line) fail(LOGIC_SHAPE, r->bad_line, r->bad_column);
}

static unsigned char *fetch(const char *name, size_t *length) {
    FILE *file = fopen(name, "rb");
    if (!file || fseek(file, 0, SEEK_END) != 0) {
        perror(name);
        exit(4);
    }
    long size = ftell(file);
    rewind(file);
    unsigned char *text = taken(malloc((size_t)size + 1));
    *length = fread(text, 1, (size_t)size, file);
    fclose(file);
    return text;
}

int main(int count, char **words) {
    if (count != 2) {
        fputs("usage: reader FILE\n", stderr);
        return 2;
    }
    size_t length;
    unsigned char *text = fetch(words[1], &length);
    struct reader r = {.at = text, .end = text + length, .line_start = text, .line = 1};
    if (length >= 3 && !memcmp(text, "\xEF\xBB\xBF", 3)) r.at += 3;
    fill_classes();
    read_forms(&r);
    printf("forms %zu nodes %zu\n", r.form_count, r.nodes);
    return 0;
}
