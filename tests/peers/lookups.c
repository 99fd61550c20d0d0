/* What the lookup answers of another program's packets: tools/peers compiles and runs this on what tests/peers/packets.py writes.
 *
 * `lookups FILE` asks ahz_lookup about each line of FILE: of the frame as it is, with an R-TAG and with an HSR tag in it, since a tag does
 * not change the stream, and with a PRP trailer behind it where it is not cut. The line says which handle has to come, or that no stream
 * has to. It prints how many answers were so, or the first that were not. Behind a cut frame lie the octets that were cut off, so that an
 * answer made of them is seen.
 *
 * `lookups FILE wrong` changes what each line says that has to come: a bit of the handle, another from line to line, or whether there is a
 * stream. Then no answer may be so. */
#include <ahozurime.h>

#include <stdio.h>
#include <stdlib.h>
#include <string.h>

enum { LINE_LONGEST = 20000, ADDED = 6, UNTOUCHED = 0x5AA5, SAID_MOST = 20 };

typedef enum { BARE, R_TAG, HSR, PRP, FORMS } Form;

static const char *const form_names[FORMS] = {"as it is", "with an R-TAG", "with an HSR tag", "with a PRP trailer"};

typedef struct {
    int stream;
    uint16_t handle; /* where there is no stream, what lay there before */
} Answer;

static int wrong;
static unsigned long cases, streams, answers[FORMS], failures;

static void stop(const char *what) {
    fprintf(stderr, "tests/peers/lookups.c: line %lu: %s\n", cases, what);
    exit(1);
}

static unsigned digit(char letter) {
    static const char digits[] = "0123456789abcdef";
    const char *place = letter == '\0' ? NULL : strchr(digits, letter);
    if (place == NULL) stop("not in hex");
    return (unsigned)(place - digits);
}

static size_t from_hex(const char *hex, uint8_t *octets, size_t room) {
    size_t length;
    for (length = 0; hex[2 * length] != '\0'; length++) {
        if (length == room) stop("too many octets");
        octets[length] = (uint8_t)(digit(hex[2 * length]) << 4 | digit(hex[2 * length + 1]));
    }
    return length;
}

static Answer expected(const char *word) {
    static unsigned turn;
    const int stream = strcmp(word, "-") != 0;
    Answer answer;
    answer.stream = stream;
    answer.handle = stream ? (uint16_t)strtoul(word, NULL, 10) : (uint16_t)UNTOUCHED;
    if (wrong) {
        const unsigned bit = turn++ % 17;
        if (stream && bit < 16) answer.handle ^= (uint16_t)(1u << bit);
        else answer.stream = !stream;
    }
    return answer;
}

/* The octets lent of the frame in that form, and how many; 0 where that form of it is not asked about. */
static size_t in_form(Form form, const uint8_t *frame, size_t octets, size_t lent, uint8_t *out) {
    const uint16_t number = (uint16_t)(43 * cases);
    const uint8_t id = (uint8_t)(cases % (AHZ_PATH_ID_LAST + 1));
    uint8_t answer = AHZ_DONE;
    size_t result = lent;
    if (form != BARE && octets + ADDED > AHZ_FRAME_LONGEST) return 0;
    if (form == PRP && lent < octets) return 0;
    memcpy(form == BARE ? out : out + ADDED, frame, octets);
    if (form == R_TAG) answer = ahz_insert(frame, lent, number, out, AHZ_FRAME_LONGEST, &result);
    if (form == HSR) answer = ahz_insert_hsr(frame, lent, number, id, out, AHZ_FRAME_LONGEST, &result);
    if (form == PRP) answer = ahz_insert_prp(frame, lent, number, id, out, AHZ_FRAME_LONGEST, &result);
    if (answer != AHZ_DONE) stop("the frame is refused");
    return result;
}

static void print_answer(const char *who, Answer answer) {
    if (answer.stream) fprintf(stderr, "%s stream %u", who, (unsigned)answer.handle);
    else fprintf(stderr, "%s no stream", who);
}

static void ask(const char *name, Form form, const uint8_t *table, size_t table_octets, const uint8_t *frame, size_t length,
                Answer wanted) {
    Answer found;
    uint8_t answer;
    int same;
    found.handle = UNTOUCHED;
    answer = ahz_lookup(table, table_octets, frame, length, &found.handle);
    if (answer != AHZ_STREAM && answer != AHZ_NO_STREAM) {
        fprintf(stderr, "tests/peers/lookups.c: line %lu, %s, %s: refused, %u\n", cases, name, form_names[form], (unsigned)answer);
        exit(1);
    }
    found.stream = answer == AHZ_STREAM;
    same = found.stream == wanted.stream && found.handle == wanted.handle;
    answers[form]++;
    if (same != wrong) return;
    if (failures++ >= SAID_MOST) return;
    fprintf(stderr, "tests/peers/lookups.c: line %lu, %s, %s:", cases, name, form_names[form]);
    print_answer(wrong ? " wrongly expected" : " expected", wanted);
    print_answer(", the layer finds", found);
    fprintf(stderr, "\n");
}

/* A line: name, handle or -, octets lent of the frame, table, frame. */
static void ask_line(char *line) {
    static uint8_t table[LINE_LONGEST / 2];
    uint8_t frame[AHZ_FRAME_LONGEST], out[AHZ_FRAME_LONGEST];
    char *words[5];
    size_t table_octets, frame_octets, lent, i;
    int form;
    Answer wanted;
    cases++;
    for (i = 0; i < 5; i++) {
        words[i] = strtok(i == 0 ? line : NULL, " \n");
        if (words[i] == NULL) stop("fewer than five words");
    }
    table_octets = from_hex(words[3], table, sizeof table);
    frame_octets = from_hex(words[4], frame, sizeof frame);
    lent = (size_t)strtoul(words[2], NULL, 10);
    if (lent > frame_octets) stop("more octets lent than there are");
    streams += strcmp(words[1], "-") != 0;
    wanted = expected(words[1]);
    for (form = BARE; form < FORMS; form++) {
        const size_t length = in_form((Form)form, frame, frame_octets, lent, out);
        if (length > 0) ask(words[0], (Form)form, table, table_octets, out, length, wanted);
    }
}

int main(int arguments, char **words) {
    static char line[LINE_LONGEST];
    FILE *file;
    wrong = arguments == 3 && strcmp(words[2], "wrong") == 0;
    if (arguments != 2 && !wrong) {
        fprintf(stderr, "lookups FILE [wrong]\n");
        return 2;
    }
    file = fopen(words[1], "r");
    if (file == NULL) {
        perror(words[1]);
        return 1;
    }
    while (fgets(line, sizeof line, file) != NULL) ask_line(line);
    if (ferror(file) != 0 || fclose(file) != 0) {
        perror(words[1]);
        return 1;
    }
    if (cases == 0) stop("there is no case");
    if (failures > 0) {
        fprintf(stderr, "tests/peers/lookups.c: %lu answers are %s\n", failures, wrong ? "as wrongly expected" : "not as expected");
        return 1;
    }
    if (wrong) {
        printf("%lu\n", answers[BARE] + answers[R_TAG] + answers[HSR] + answers[PRP]);
        return 0;
    }
    printf("%lu streams and %lu times none as scapy reads them, and the same with %lu R-TAGs, %lu HSR tags and %lu PRP trailers put in\n",
           streams, cases - streams, answers[R_TAG], answers[HSR], answers[PRP]);
    return 0;
}
