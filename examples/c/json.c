/* Reads a JSON value, puts it without blanks, and gives the sum of its numbers. A string is read into an array of 16 bytes, and
   nobody looks how long it is. */
#include <stdio.h>
#include <stdlib.h>

enum kind { null, boolean, number, string, array, object };

struct value {
    enum kind kind;
    int n;
    char *text;
    char *name;
    struct value *first;
    struct value *next;
};

/* taken where the input is empty */
char *text = "{\"name\": \"Ann\", \"marks\": [1, 2, {\"a name far too long\": 3}]}";
int c;

void step(void)
{
    c = getchar();
    if (c != EOF)
        text = "";
    else if (*text != 0)
        c = *text++;
}

void put(char *s)
{
    while (*s != 0)
        putchar(*s++);
}

void fail(char *why)
{
    put(why);
    putchar('\n');
    abort();
}

int is(int wanted)
{
    while (c == ' ' || c == '\t' || c == '\n')
        step();
    if (c != wanted)
        return 0;
    step();
    return 1;
}

void expect(int wanted)
{
    if (!is(wanted))
        fail("something else is expected");
}

char *read_string(void)
{
    char room[16];
    char *s;
    int length = 0;
    for (expect('"'); c != '"'; step()) {
        if (c == EOF)
            fail("a string has no end");
        if (c == '\\')
            step();
        room[length++] = c;
    }
    step();
    room[length++] = 0;
    s = malloc(length);
    if (s == 0)
        abort();
    while (length-- > 0)
        s[length] = room[length];
    return s;
}

int read_number(void)
{
    int negative = is('-');
    int n = 0;
    if (c < '0' || c > '9')
        fail("no value");
    for (; c >= '0' && c <= '9'; step())
        n = n * 10 + (c - '0');
    return negative ? -n : n;
}

int read_word(char *word)
{
    for (; *word != 0; word++) {
        if (c != *word)
            fail("no word");
        step();
    }
    return 1;
}

struct value *read_value(void);

struct value *made(enum kind kind)
{
    struct value *v = calloc(1, sizeof(struct value));
    if (v == 0)
        abort();
    v->kind = kind;
    return v;
}

struct value *read_items(enum kind kind, int end)
{
    struct value *v = made(kind);
    struct value **last = &v->first;
    if (is(end))
        return v;
    do {
        char *name = 0;
        if (kind == object) {
            name = read_string();
            expect(':');
        }
        *last = read_value();
        (*last)->name = name;
        last = &(*last)->next;
    } while (is(','));
    expect(end);
    return v;
}

struct value *read_value(void)
{
    struct value *v;
    if (is('{'))
        return read_items(object, '}');
    if (is('['))
        return read_items(array, ']');
    v = made(number);
    switch (c) {
    case '"':
        v->kind = string;
        v->text = read_string();
        break;
    case 't':
        v->kind = boolean;
        v->n = read_word("true");
        break;
    case 'f':
        v->kind = boolean;
        v->n = !read_word("false");
        break;
    case 'n':
        v->kind = null;
        read_word("null");
        break;
    default:
        v->n = read_number();
    }
    return v;
}

void put_number(int n)
{
    if (n < 0) {
        putchar('-');
        n = -n;
    }
    if (n > 9)
        put_number(n / 10);
    putchar('0' + n % 10);
}

void put_string(char *s)
{
    putchar('"');
    put(s);
    putchar('"');
}

void show(struct value *v)
{
    struct value *item;
    switch (v->kind) {
    case null:
        put("null");
        break;
    case boolean:
        put(v->n ? "true" : "false");
        break;
    case number:
        put_number(v->n);
        break;
    case string:
        put_string(v->text);
        break;
    default:
        putchar(v->kind == object ? '{' : '[');
        for (item = v->first; item != 0; item = item->next) {
            if (item != v->first)
                putchar(',');
            if (item->name != 0) {
                put_string(item->name);
                putchar(':');
            }
            show(item);
        }
        putchar(v->kind == object ? '}' : ']');
    }
}

int sum(struct value *v)
{
    int n = v->kind == number ? v->n : 0;
    struct value *item;
    for (item = v->first; item != 0; item = item->next)
        n += sum(item);
    return n;
}

int main(void)
{
    struct value *v;
    step();
    v = read_value();
    show(v);
    putchar('\n');
    return sum(v);
}
