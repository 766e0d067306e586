/*
 * The draw of a question: codes, references that fit them, now and then a
 * fault, and an order price chosen by the range that results. Last, the
 * security code may become a bad one.
 */
#include "draw_order.h"
#include "draw_price.h"
#include "draw_security.h"
#include "plain.h"

enum { SIDE, TYPE, QUEUE, ZERO, CODES };
enum {
    PRICE, BID, ASK, LAST_BID, LAST_ASK, CLOSE, DAY_LOW, DAY_HIGH, NOMINAL,
    SECURITY, FIELDS, REFERENCES = NOMINAL - BID + 1
};
enum { OPENING = 1, BOTH, BUY_ONLY, SELL_ONLY };

/* A question before it is written as bytes. */
struct form {
    uint8_t code[CODES];
    uint32_t field[FIELDS];
};

static void write_form(const struct form *form,
                       uint8_t question[PLAIN_QUESTION_BYTES])
{
    for (uint32_t i = 0; i < CODES; i++)
        question[i] = form->code[i];
    for (uint32_t i = 0; i < 4 * FIELDS; i++)
        question[CODES + i] = (uint8_t)(form->field[i / 4] >> 8 * (i % 4));
}

/* A field of a question that is written as bytes. */
static uint32_t field_of(const uint8_t question[PLAIN_QUESTION_BYTES],
                         uint32_t which)
{
    const uint8_t *byte = question + CODES + 4 * which;
    return (uint32_t)byte[0] | (uint32_t)byte[1] << 8
         | (uint32_t)byte[2] << 16 | (uint32_t)byte[3] << 24;
}

/* A special order without an opposite queue is refused whatever the rest. */
static bool special_without_opposite(const struct form *form)
{
    uint8_t one_sided = form->code[SIDE] == 1 ? SELL_ONLY : BUY_ONLY;
    return form->code[TYPE] == 3 && form->code[QUEUE] != BOTH
        && form->code[QUEUE] != one_sided;
}

/* Known codes, with most special orders of that sort drawn again. */
static void set_codes(struct draw *draw, struct form *form)
{
    do {
        form->code[SIDE] = (uint8_t)(1 + draw_below(draw, 2));
        form->code[TYPE] = (uint8_t)(1 + draw_below(draw, 3));
        form->code[QUEUE] = (uint8_t)(1 + draw_below(draw, 5));
        form->code[ZERO] = 0;
    } while (special_without_opposite(form) && !draw_one_in(draw, 3));
}

static uint32_t maybe(struct draw *draw, struct draw_span span)
{
    return draw_one_in(draw, 3) ? 0 : draw_reference(draw, span);
}

static uint32_t maybe_loose(struct draw *draw, struct draw_span span)
{
    return draw_one_in(draw, 3) ? 0 : draw_loose_reference(draw, span);
}

static void exchange(uint32_t *a, uint32_t *b)
{
    uint32_t kept = *a;
    *a = *b;
    *b = kept;
}

/* The current bid and ask that the queue code asks for, bid below ask. */
static void set_quotes(struct draw *draw, struct draw_span span,
                       struct form *form)
{
    uint32_t *bid = &form->field[BID], *ask = &form->field[ASK];
    *bid = draw_reference(draw, span);
    *ask = draw_reference(draw, span);
    if (draw_one_in(draw, 3))
        *ask = plain_up(*bid, 1);
    if (*bid > *ask)
        exchange(bid, ask);
    if (*bid == *ask)
        *bid = plain_down(*bid, 1);
    if (*bid == *ask)
        *ask = plain_up(*ask, 1);
    if (form->code[QUEUE] != BOTH && form->code[QUEUE] != BUY_ONLY)
        *bid = 0;
    if (form->code[QUEUE] != BOTH && form->code[QUEUE] != SELL_ONLY)
        *ask = 0;
}

/* References that agree with the queue code; the others may be missing. */
static void set_references(struct draw *draw, struct form *form)
{
    struct draw_span span = draw_span(draw);
    uint32_t *field = form->field;
    field[PRICE] = 0;
    set_quotes(draw, span, form);
    bool opening = form->code[QUEUE] == OPENING;
    field[LAST_BID] = opening ? 0 : maybe(draw, span);
    field[LAST_ASK] = opening ? 0 : maybe(draw, span);
    field[CLOSE] = maybe_loose(draw, span);
    field[DAY_LOW] = maybe(draw, span);
    field[DAY_HIGH] = field[DAY_LOW] == 0 ? 0 : draw_reference(draw, span);
    if (field[DAY_LOW] > field[DAY_HIGH])
        exchange(&field[DAY_LOW], &field[DAY_HIGH]);
    field[NOMINAL] = maybe_loose(draw, span);
}

/* At or beside nine times a price or a ninth of it: a ladder price or, within
 * the ends, to the mil. */
static uint32_t nine_fold_away(struct draw *draw, uint32_t price)
{
    uint32_t edge = draw_one_in(draw, 2) ? 9 * price : price / 9;
    if (edge <= PLAIN_FIRST || edge >= PLAIN_LAST || draw_one_in(draw, 2))
        return draw_beside(draw, edge);
    return edge - 1 + draw_below(draw, 3);
}

uint32_t draw_far_nominal(struct draw *draw,
                          const uint8_t question[PLAIN_QUESTION_BYTES])
{
    struct plain_prepared range = plain_prepare(question);
    if (range.number != 0)
        return field_of(question, NOMINAL);
    uint32_t price = range.lowest;
    if (draw_one_in(draw, 3))
        price = range.highest;
    else if (draw_one_in(draw, 2))
        price = draw_between(draw, range.lowest, range.highest);
    return nine_fold_away(draw, price);
}

static void set_far_nominal(struct draw *draw, struct form *form)
{
    uint8_t question[PLAIN_QUESTION_BYTES];
    write_form(form, question);
    form->field[NOMINAL] = draw_far_nominal(draw, question);
}

/* One code that is unknown, or byte 3 not zero. */
static void put_code_fault(struct draw *draw, struct form *form)
{
    static const uint8_t most[CODES] = {2, 3, 5, 0};
    uint32_t which = draw_below(draw, CODES);
    const uint8_t unknown[4] = {0, (uint8_t)(most[which] + 1), UINT8_MAX,
                                (uint8_t)draw_number(draw)};
    form->code[which] = unknown[draw_below(draw, 4)];
}

/* Each reference missing or present, whatever the queue code asks for. */
static void put_any_references(struct draw *draw, struct form *form)
{
    for (uint32_t i = BID; i <= NOMINAL; i++) {
        if (draw_one_in(draw, 2))
            form->field[i] = 0;
        else if (form->field[i] == 0)
            form->field[i] = draw_price(draw);
    }
}

/* A change to one reference, or to two that belong together. */
static void put_reference_fault(struct draw *draw, struct form *form)
{
    uint32_t *field = form->field;
    uint32_t *any = &field[BID + draw_below(draw, REFERENCES)];
    uint32_t *loose = &field[draw_one_in(draw, 2) ? CLOSE : NOMINAL];
    switch (draw_below(draw, 10)) {
    case 0:
        *any = draw_one_in(draw, 2) ? *any + 1 : *any - 1;
        break;
    case 1:
        *any = draw_odd_price(draw);
        break;
    case 2:
    case 3:
        *any = *any == 0 ? draw_price(draw) : 0;
        break;
    case 4:
        *any = draw_price(draw);
        break;
    case 5:
        exchange(&field[BID], &field[ASK]);
        break;
    case 6:
        field[BID] = field[ASK];
        break;
    case 7:
        exchange(&field[DAY_LOW], &field[DAY_HIGH]);
        break;
    case 8:
        *loose = draw_past_end(draw);
        break;
    default:
        put_any_references(draw, form);
        break;
    }
}

static void put_fault(struct draw *draw, struct form *form)
{
    if (draw_one_in(draw, 5))
        put_code_fault(draw, form);
    else
        put_reference_fault(draw, form);
}

/* A price at an end of either range, at an edge of the nine-fold rule, or
 * at a reference, then shifted a little or not at all. */
static uint32_t price_at_edge(struct draw *draw,
                              const uint8_t question[PLAIN_QUESTION_BYTES],
                              struct plain_prepared permitted,
                              struct plain_answer shown)
{
    uint32_t edge[7] = {
        permitted.lowest, permitted.highest, shown.lowest, shown.highest,
        9 * permitted.nine_fold, permitted.nine_fold / 9,
        field_of(question, BID + draw_below(draw, REFERENCES)),
    };
    return draw_shifted(draw, edge[draw_below(draw, 7)]);
}

uint32_t draw_order_price(struct draw *draw,
                          const uint8_t question[PLAIN_QUESTION_BYTES])
{
    struct plain_prepared permitted = plain_prepare(question);
    struct plain_answer shown = plain_question(question);

    if (draw_one_in(draw, 25))
        return draw_odd_price(draw);
    if (permitted.lowest == 0 || draw_one_in(draw, 8))
        return draw_shifted(draw, draw_price(draw));
    if (draw_one_in(draw, 6))
        return draw_between(draw, permitted.lowest, permitted.highest);
    if (shown.lowest != 0 && draw_one_in(draw, 5))
        return draw_between(draw, shown.lowest, shown.highest);
    return price_at_edge(draw, question, permitted, shown);
}

static void set_order_price(struct draw *draw, struct form *form)
{
    uint8_t question[PLAIN_QUESTION_BYTES];
    write_form(form, question);
    form->field[PRICE] = draw_order_price(draw, question);
}

static void draw_random_bytes(struct draw *draw,
                              uint8_t question[PLAIN_QUESTION_BYTES])
{
    for (uint32_t i = 0; i < PLAIN_QUESTION_BYTES; i++)
        question[i] = (uint8_t)draw_number(draw);
}

void draw_question(struct draw *draw,
                   uint8_t question[PLAIN_QUESTION_BYTES])
{
    if (draw_one_in(draw, 100)) {
        draw_random_bytes(draw, question);
        return;
    }
    struct form form;
    set_codes(draw, &form);
    set_references(draw, &form);
    form.field[SECURITY] = draw_good_security(draw);
    if (draw_one_in(draw, 3))
        set_far_nominal(draw, &form);
    if (draw_one_in(draw, 4))
        put_fault(draw, &form);
    if (draw_one_in(draw, 12))
        put_fault(draw, &form);
    set_order_price(draw, &form);
    if (draw_one_in(draw, 16))
        form.field[SECURITY] = draw_bad_security(draw);
    write_form(&form, question);
}
