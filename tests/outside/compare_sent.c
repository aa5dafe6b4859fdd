/* Claims that are refused, and with which number: for the areas, and for the model or its file, as a rank call refuses it; bytes
 * that are not read. */
#include "claims.h"

/* Our answer, or parts drawn for the model. */
static Claim draw_claim(const Model *m)
{
    Called c = call_model(harness_layered, m, exact_lengths(m, WUNDRESKA_ANSWER_SIZE), WUNDRESKA_ANSWER_SIZE);
    Claim claim = claim_of(c.out);
    if (one_in(4))
        draw_parts(m, &claim);
    return claim;
}

/* About a model in which a number may stand twice, and which is answered without its numbers. */
static Claim draw_claim_unnumbered(const Model *m)
{
    static Model unnumbered;
    unnumbered = *m;
    unnumbered.numbered = 0;
    return draw_claim(&unnumbered);
}

/* ---- areas ---- */

static void compare_areas(void)
{
    static uint8_t file[WUNDRESKA_FILE_MAX];
    begin_category("claims and answer areas of every length");
    for (size_t length = 0; length <= SENT_MOST; length++)
        for (size_t room = 0; room <= 2 * WUNDRESKA_ACCEPTS_SIZE + 1; room++)
            for (int i = 0; i < FEW; i++) {
                Model m = draw_any(FEW, FEW);
                Claim claim = draw_claim(&m);
                send_claim(&claim, length);
                try_area(&claim_question, file, write_file(&m, file), room);
                count_case(handed_complaint(&claim_question, &m, exact_lengths(&m, room)), &m);
            }
}

/* ---- bytes that are not read ---- */

/* Asked without any byte behind the claim, and several times with others there. */
static const char *surplus_complaint(const Model *m, const Claim *claim)
{
    enum { SIZE = WUNDRESKA_ACCEPTS_SIZE, TIMES = 3 };
    const File *file = file_of(m);
    send_claim(claim, WUNDRESKA_CLAIM_SIZE);
    Called once = call_file(claim_question.call, file->bytes, file->length, SIZE, SIZE);
    for (int i = 0; i < TIMES; i++) {
        send_claim(claim, SENT_MOST - draw(MORE));
        Called again = call_file(claim_question.call, file->bytes, file->length, SIZE, SIZE);
        Called handed = call_model(claim_question.handed, m, exact_lengths(m, SIZE), SIZE);
        if (once.refusal || again.refusal || handed.refusal)
            return "a claim is refused for bytes that are not to be read";
        if (once.out[0] != again.out[0] || once.out[0] != handed.out[0])
            return "the answer changes with bytes that are not to be read";
    }
    return NULL;
}

static void compare_surplus(void)
{
    begin_category("claims sent again, with other bytes behind them");
    for (int i = 0; i < 3000; i++) {
        Model m = draw_any(SMALL, SMALL);
        Claim claim = draw_claim(&m);
        count_case(surplus_complaint(&m, &claim), &m);
    }
}

/* ---- several faults, so that their order shows ---- */

/* With areas that are long enough, both calls refuse a file with the same number, or none does. */
static const char *alike_complaint(const File *file)
{
    Called claimed = call_file(claim_question.call, file->bytes, file->length, WUNDRESKA_ACCEPTS_SIZE, WUNDRESKA_ACCEPTS_SIZE);
    Called checked = call_file(wundreska_check, file->bytes, file->length, WUNDRESKA_ANSWER_SIZE, WUNDRESKA_ANSWER_SIZE);
    return claimed.refusal == checked.refusal ? NULL : "a file is not refused as a rank call refuses it";
}

static void try_faulty_file(const Model *m)
{
    static File file;
    Claim claim = draw_claim_unnumbered(m);
    file.length = write_file(m, file.bytes);
    if (one_in(2))
        file.length = damage_file(file.bytes, file.length);
    send_claim(&claim, draw_length(WUNDRESKA_CLAIM_SIZE));
    try_area(&claim_question, file.bytes, file.length, draw_length(WUNDRESKA_ACCEPTS_SIZE));
    send_claim(&claim, draw_sent());
    count_case(alike_complaint(&file), m);
}

static void compare_faults(void)
{
    begin_category("claims about files, with several faults of the file and the areas");
    for (int i = 0; i < 15000; i++) {
        Model m = draw_with_twice();
        try_faulty_file(&m);
    }
    begin_category("claims about models handed over, with several faults of the model and the areas");
    for (int i = 0; i < 20000; i++) {
        Model m = draw_any(FEW, FEW);
        Claim claim = draw_claim(&m);
        send_claim(&claim, draw_length(WUNDRESKA_CLAIM_SIZE));
        draw_numbers(&m);
        Lengths l = spoil_numbered(&m, WUNDRESKA_ACCEPTS_SIZE);
        count_case(handed_complaint(&claim_question, &m, l), &m);
    }
}

/* ---- damaged files ---- */

static void compare_damages(void)
{
    static File file;
    begin_category("claims about damaged files: every prefix, every bit turned, random damage");
    for (int i = 0; i < 20; i++) {
        Model m = draw_any(FEW, FEW);
        Claim claim = draw_claim(&m);
        file.length = write_file(&m, file.bytes);
        send_claim(&claim, draw_sent());
        try_prefixes(&claim_question, file.bytes, file.length);
        try_flips(&claim_question, file.bytes, file.length);
        try_damages(&claim_question, file.bytes, file.length, file.length);
    }
}

void compare_sent(void)
{
    compare_areas();
    compare_surplus();
    compare_faults();
    compare_damages();
}
