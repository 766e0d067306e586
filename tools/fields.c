/*
 * A question in readable form: a line of words, each the name of a field, '='
 * and its value.
 */
#include "fields.h"

#include <string.h>

/* The fields in the order of the record: four codes of a byte each, then nine
 * prices, then the security code. */
enum {
    SIDE, TYPE, QUEUE, BYTE3, PRICE, NOMINAL = 12, SECURITY_CODE, FIELDS
};

static const char *const names[FIELDS] = {
    "side", "type", "queue", "byte3", "price", "bid", "ask", "last-bid",
    "last-ask", "close", "day-low", "day-high", "nominal", "code",
};

/* The kinds of field: a byte, a price, or else a plain number. */
static bool is_byte(int field)
{
    return field < PRICE;
}

static bool is_price(int field)
{
    return field >= PRICE && field <= NOMINAL;
}

enum { NAMED = 6 }; /* codes that may have a name: 0 to 5 */

static const char *const codes[PRICE][NAMED] = {
    [SIDE] = {[HENDOVITA_BUY] = "buy", [HENDOVITA_SELL] = "sell"},
    [TYPE] = {[HENDOVITA_LIMIT] = "limit",
              [HENDOVITA_ENHANCED_LIMIT] = "enhanced",
              [HENDOVITA_SPECIAL_LIMIT] = "special"},
    [QUEUE] = {[HENDOVITA_OPENING] = "opening",
               [HENDOVITA_BOTH_QUEUES] = "both",
               [HENDOVITA_BUY_QUEUE_ONLY] = "buy-only",
               [HENDOVITA_SELL_QUEUE_ONLY] = "sell-only",
               [HENDOVITA_NEITHER_QUEUE] = "neither"},
};

/* A form of line: a whole question, or an order, of which a day gives the
 * rest; and what is said where a name is none of its fields, or where a field
 * that is required is not given. */
struct form {
    bool is_whole;
    const char *before_name, *after_name, *missing;
};

static const struct form question_form = {
    true, "no field is called ", "",
    " is not given: side, type, queue and price are required"};

static const struct form order_form = {
    false, "no field of an order is called ",
    ": an order has side, type, price, nominal and code; close, bid, ask, "
    "empty and trade stand alone",
    " is not given: side, type and price are required"};

static bool has_field(const struct form *form, int field)
{
    return form->is_whole || field == SIDE || field == TYPE || field == PRICE
        || field == NOMINAL || field == SECURITY_CODE;
}

static bool is_required(const struct form *form, int field)
{
    return has_field(form, field) && field <= PRICE && field != BYTE3;
}

/* Where the four bytes of a field that has four begin. */
static int place_of(int field)
{
    return 4 + 4 * (field - PRICE);
}

/* A record of which no field is given: every one is 0, but the security code is
 * 1. */
static void clear(uint8_t *record)
{
    memset(record, 0, HENDOVITA_QUESTION_BYTES);
    hendovita_put_number(record + place_of(SECURITY_CODE), 1);
}

/* ---- reading: each answers what is wrong, or NULL ------------------- */

static const char *read_code(int field, struct text value, uint8_t *record)
{
    static const char *const wrong[PRICE] = {
        [SIDE] = ": a side is buy, sell or a number from 0 to 255",
        [TYPE] = ": a type is limit, enhanced, special or a number from 0 to "
                 "255",
        [QUEUE] = ": a queue is opening, both, buy-only, sell-only, neither "
                  "or a number from 0 to 255",
        [BYTE3] = ": byte3 is a number from 0 to 255",
    };
    for (uint8_t code = 0; code < NAMED; code++) {
        if (codes[field][code] != NULL && text_is(value, codes[field][code])) {
            record[field] = code;
            return NULL;
        }
    }
    if (!text_is_digits(value) || text_number(value, UINT8_MAX) > UINT8_MAX)
        return wrong[field];
    record[field] = (uint8_t)text_number(value, UINT8_MAX);
    return NULL;
}

const char *fields_read_price(struct text value, uint32_t *price)
{
    static const uint32_t mils_of_last_decimal[4] = {0, 100, 10, 1};
    struct text units, decimals;
    if (memchr(value.bytes, ',', value.length) != NULL)
        return ": prices have no comma: decimals come after a point, "
               "thousands are not set apart";
    bool point = text_split(value, '.', &units, &decimals);
    if (!text_is_digits(units) || (point && !text_is_digits(decimals)))
        return ": a price is digits, or digits, a point and one to three "
               "decimals";
    if (decimals.length > 3)
        return ": prices have at most three decimals";

    uint64_t mils = 1000 * text_number(units, UINT32_MAX)
        + text_number(decimals, 999) * mils_of_last_decimal[decimals.length];
    if (mils > UINT32_MAX)
        return ": prices are at most 4294967.295";
    *price = (uint32_t)mils;
    return NULL;
}

static const char *read_security_code(struct text value, uint32_t *number)
{
    if (!text_is_digits(value) || text_number(value, UINT32_MAX) > UINT32_MAX)
        return ": a security code is a number from 0 to 4294967295";
    *number = (uint32_t)text_number(value, UINT32_MAX);
    return NULL;
}

static const char *read_value(int field, struct text value, uint8_t *record)
{
    uint32_t number = 0;
    if (is_byte(field))
        return read_code(field, value, record);
    const char *wrong = is_price(field) ? fields_read_price(value, &number)
                                        : read_security_code(value, &number);
    hendovita_put_number(record + place_of(field), number);
    return wrong;
}

static int field_called(const struct form *form, struct text name)
{
    int field = 0;
    while (field < FIELDS
           && !(has_field(form, field) && text_is(name, names[field])))
        field++;
    return field;
}

/* ---- a line ---------------------------------------------------------- */

bool fields_has_value(const struct text_lines *lines, struct text word,
                      struct text value)
{
    return value.length > 0
        || text_wrong(lines, "", word, " has no value after the '='");
}

static bool read_word(const struct text_lines *lines, const struct form *form,
                      struct text word, bool given[FIELDS], uint8_t *record)
{
    struct text name, value;
    if (!text_split(word, '=', &name, &value))
        return text_wrong(lines, "", word,
                          " has no '=': fields are written name=value, "
                          "without blanks");
    int field = field_called(form, name);
    if (field == FIELDS)
        return text_wrong(lines, form->before_name, name, form->after_name);
    if (given[field])
        return text_wrong(lines, "", name, " is given twice");
    given[field] = true;
    if (!fields_has_value(lines, word, value))
        return false;

    const char *wrong = read_value(field, value, record);
    return wrong == NULL || text_wrong(lines, "", word, wrong);
}

static bool has_required(const struct text_lines *lines,
                         const struct form *form, const bool given[FIELDS])
{
    for (int field = 0; field < FIELDS; field++) {
        struct text name = {names[field], strlen(names[field])};
        if (is_required(form, field) && !given[field])
            return text_wrong(lines, "", name, form->missing);
    }
    return true;
}

static enum fields_found read_line(const struct text_lines *lines,
                                   const struct form *form, uint8_t *record)
{
    struct text rest, word;
    bool given[FIELDS] = {false};
    bool any = false;
    if (!text_fits(lines))
        return FIELDS_WRONG;
    rest = text_before_comment(lines);
    clear(record);
    while (text_word(&rest, &word)) {
        any = true;
        if (!read_word(lines, form, word, given, record))
            return FIELDS_WRONG;
    }
    if (!any)
        return FIELDS_NONE;
    return has_required(lines, form, given) ? FIELDS_QUESTION : FIELDS_WRONG;
}

enum fields_found fields_read(const struct text_lines *lines,
                              uint8_t record[HENDOVITA_QUESTION_BYTES])
{
    return read_line(lines, &question_form, record);
}

enum fields_found fields_read_order(const struct text_lines *lines,
                                    struct fields_order *order)
{
    uint8_t record[HENDOVITA_QUESTION_BYTES] = {0};
    enum fields_found found = read_line(lines, &order_form, record);
    order->side = record[SIDE];
    order->type = record[TYPE];
    order->price = hendovita_get_number(record + place_of(PRICE));
    order->nominal = hendovita_get_number(record + place_of(NOMINAL));
    order->security_code =
        hendovita_get_number(record + place_of(SECURITY_CODE));
    return found;
}

/* ---- printing -------------------------------------------------------- */

void fields_print_price(uint32_t mils)
{
    printf("%u.%03u", (unsigned)(mils / 1000), (unsigned)(mils % 1000));
}

/* A 0 is left out where a question may do without the field. The security code
 * is always there: left out, it would be read as 1. */
static bool is_printed(int field, uint32_t value)
{
    return value != 0 || field == SECURITY_CODE
        || is_required(&question_form, field);
}

static void print_value(int field, uint32_t value)
{
    if (is_price(field))
        fields_print_price(value);
    else if (is_byte(field) && value < NAMED && codes[field][value] != NULL)
        printf("%s", codes[field][value]);
    else
        printf("%u", (unsigned)value);
}

void fields_print(const uint8_t record[HENDOVITA_QUESTION_BYTES])
{
    for (int field = 0; field < FIELDS; field++) {
        uint32_t value = is_byte(field)
            ? record[field]
            : hendovita_get_number(record + place_of(field));
        if (!is_printed(field, value))
            continue;
        printf("%s%s=", field == 0 ? "" : " ", names[field]);
        print_value(field, value);
    }
    printf("\n");
}
