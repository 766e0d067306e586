/*
 * A day in readable form: a line for each thing that happens to a security,
 * and for each order.
 */
#include "feed.h"

/* The names of what can happen. All but EMPTY have a price. */
enum { CLOSE, BID, ASK, TRADE, EMPTY, NAMES };

static const char *const names[NAMES] = {
    "close", "bid", "ask", "trade", "empty",
};

enum { NEW_DAY = 0 }; /* for a close: no kind of event has this number */

static const uint32_t kinds[EMPTY] = {
    [CLOSE] = NEW_DAY,
    [BID] = HENDOVITA_BEST_BID,
    [ASK] = HENDOVITA_BEST_ASK,
    [TRADE] = HENDOVITA_SYSTEM_TRADE,
};

struct event {
    uint32_t kind, price;
};

static int name_called(struct text text)
{
    int name = 0;
    while (name < NAMES && !text_is(text, names[name]))
        name++;
    return name;
}

/* Whether a number is that of acceptance; a message if not. */
static bool is_accepted(const struct text_lines *lines, struct text what,
                        uint32_t number)
{
    if (number == HENDOVITA_ACCEPTED)
        return true;
    text_quote(lines, "", what);
    fprintf(stderr, ": %s (%u)\n", hendovita_text(number), (unsigned)number);
    return false;
}

/* ---- reading: each answers what is wrong, or NULL ------------------- */

static const char *read_queue(struct text value, uint32_t *kind)
{
    if (text_is(value, "buy"))
        *kind = HENDOVITA_BUY_QUEUE_EMPTY;
    else if (text_is(value, "sell"))
        *kind = HENDOVITA_SELL_QUEUE_EMPTY;
    else
        return ": the queue that is empty is buy or sell";
    return NULL;
}

static const char *read_event(int name, struct text value, struct event *event)
{
    *event = (struct event){0, 0};
    if (name == EMPTY)
        return read_queue(value, &event->kind);
    event->kind = kinds[name];
    return fields_read_price(value, &event->price);
}

/* ---- a line ---------------------------------------------------------- */

/* What is turned away leaves a day to go on with too. */
static bool enter(const struct text_lines *lines, struct text word,
                  struct event event, struct hendovita_day *day)
{
    struct hendovita_entered entered = event.kind == NEW_DAY
        ? hendovita_open_day(event.price)
        : hendovita_enter_event(*day, event.kind, event.price);
    *day = entered.day;
    return is_accepted(lines, word, entered.number);
}

/* A line that begins with a close or an event. */
static bool play(const struct text_lines *lines, struct text word,
                 struct text rest, struct hendovita_day *day)
{
    struct text name, value, second;
    struct event event;
    text_split(word, '=', &name, &value);
    if (!fields_has_value(lines, word, value))
        return false;
    const char *wrong = read_event(name_called(name), value, &event);
    if (wrong != NULL)
        return text_wrong(lines, "", word, wrong);
    if (text_word(&rest, &second))
        return text_wrong(lines, "", second,
                          " comes after an event: close, bid, ask, empty and "
                          "trade stand alone");
    return enter(lines, word, event, day);
}

/* A line that does not: an order, or nothing. */
static enum fields_found fill(const struct text_lines *lines,
                              const struct hendovita_day *day, uint8_t *record)
{
    struct fields_order order;
    enum fields_found found = fields_read_order(lines, &order);
    if (found != FIELDS_QUESTION)
        return found;
    uint32_t number = hendovita_fill_question(
        *day, order.side, order.type, order.price, order.nominal,
        order.security_code, record, HENDOVITA_QUESTION_BYTES);
    return is_accepted(lines, text_line(lines), number) ? FIELDS_QUESTION
                                                        : FIELDS_WRONG;
}

enum fields_found feed_read(const struct text_lines *lines,
                            struct hendovita_day *day,
                            uint8_t record[HENDOVITA_QUESTION_BYTES])
{
    struct text rest, word, name, value;
    if (!text_fits(lines))
        return FIELDS_WRONG;
    rest = text_before_comment(lines);
    text_word(&rest, &word);
    if (!text_split(word, '=', &name, &value) || name_called(name) == NAMES)
        return fill(lines, day, record);
    return play(lines, word, rest, day) ? FIELDS_NONE : FIELDS_WRONG;
}
