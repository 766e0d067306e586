// A C++ program that calls a function of each kind.
#include "hendovita.h"

int main()
{
    uint8_t asked_bytes[HENDOVITA_QUESTION_BYTES];
    uint8_t question[HENDOVITA_QUESTION_BYTES];
    uint8_t answer[HENDOVITA_ANSWER_BYTES], other[HENDOVITA_ANSWER_BYTES];
    hendovita_question asked = hendovita_question();
    asked.side = HENDOVITA_BUY;
    asked.order_type = HENDOVITA_LIMIT;
    asked.queue = HENDOVITA_BOTH_QUEUES;
    asked.price = 19890;
    asked.current_bid = 19890;
    asked.current_ask = 19900;
    asked.security_code = 1;
    hendovita_put_question(asked_bytes, &asked);

    const hendovita_outcome batch = hendovita_judge_batch(
        asked_bytes, sizeof asked_bytes, answer, sizeof answer);
    const hendovita_answer one =
        hendovita_judge_question(asked_bytes, sizeof asked_bytes);
    const hendovita_answer trade =
        hendovita_judge_trade(9503, 10000, 9600, 9800, 10300, 10600);
    const hendovita_entered fresh = hendovita_open_day(20000);
    const hendovita_entered quoted =
        hendovita_enter_event(fresh.day, HENDOVITA_BEST_BID, 19890);
    const uint32_t filled = hendovita_fill_question(
        quoted.day, HENDOVITA_BUY, HENDOVITA_LIMIT, 19890, 0, 99999, question,
        sizeof question);
    const hendovita_prepared once =
        hendovita_prepare(asked_bytes, sizeof asked_bytes);
    const hendovita_answer slid = hendovita_judge_prepared(
        once.lowest, once.highest, once.nine_fold, 18890);
    const hendovita_prepared unprepared = hendovita_prepare_on(
        HENDOVITA_BEFORE_PHASE_1, asked_bytes, sizeof asked_bytes);
    const hendovita_answer older = hendovita_judge_prepared_on(
        HENDOVITA_BEFORE_PHASE_1, once.lowest, once.highest, once.nine_fold,
        19890);
    const hendovita_outcome before = hendovita_judge_batch_on(
        HENDOVITA_BEFORE_PHASE_1, asked_bytes, sizeof asked_bytes, other,
        sizeof other);
    const hendovita_answer later = hendovita_judge_question_on(
        HENDOVITA_PHASE_2, asked_bytes, sizeof asked_bytes);
    const hendovita_answer none =
        hendovita_judge_trade_on(4, 9503, 10000, 9600, 9800, 10300, 10600);
    const bool right = batch.number == HENDOVITA_ACCEPTED && batch.count == 1
        && hendovita_get_answer(answer).lowest == 18900
        && one.lowest == 18900 && one.highest == 19900
        && trade.number == HENDOVITA_ACCEPTED && trade.lowest == 9500
        && once.number == 0 && once.lowest == 18900
        && once.highest == 19900 && once.nine_fold == 0
        && slid.number == HENDOVITA_BELOW_LOWEST && slid.lowest == 18900
        && unprepared.number == HENDOVITA_REFERENCE_OFF_LADDER
        && older.number == HENDOVITA_BETWEEN_PRICES && older.lowest == 18900
        && fresh.day.previous_close == 20000 && quoted.day.last_bid == 19890
        && filled == HENDOVITA_ACCEPTED
        && question[2] == HENDOVITA_BUY_QUEUE_ONLY
        && hendovita_get_number(question + 40) == 99999
        && hendovita_up(500, 24).price == 740
        && !hendovita_place_of(20050).found
        && hendovita_lower_limit(20200).price == 19190
        && before.count == 1
        && hendovita_get_answer(other).number
            == HENDOVITA_REFERENCE_OFF_LADDER
        && later.lowest == 18900 && none.number == HENDOVITA_UNKNOWN_TABLE
        && hendovita_up_on(HENDOVITA_PHASE_2, 500, 24).price == 620
        && hendovita_place_of_on(HENDOVITA_BEFORE_PHASE_1, 20050).found
        && hendovita_lower_limit_on(HENDOVITA_BEFORE_PHASE_1, 20200).price
            == 19200
        && hendovita_band_of_on(HENDOVITA_PHASE_2, 500, 5).index == 1
        && !hendovita_band_of_on(HENDOVITA_PHASE_2, 500, 4).found;
    return right ? 0 : 1;
}
