/* Calls the archive as include/blotheath.h says, with slices without elements at NULL. Ends with 0 where every answer is as said. */
#include <stdio.h>
#include <string.h>
#include "blotheath.h"

#define NONE NULL, 0
#define LENT(slice) slice, sizeof slice / sizeof *slice
#define DESKTOP BLOTHEATH_DESKTOP_BYTES, BLOTHEATH_DESKTOP_RECORDS
#define PREVIEW BLOTHEATH_PREVIEW_BYTES, BLOTHEATH_PREVIEW_RECORDS
#define NO_TABLES NONE, NONE, NONE, NONE, NONE, NONE, NONE, NONE, NONE

/* A yes for each opcode. */
static uint8_t everything[BLOTHEATH_OPCODES];
#define EVERYTHING LENT(everything)

static int wrong = 0;

static void hold(int good, const char *what) {
    if (!good) {
        printf("not so: %s\n", what);
        wrong = 1;
    }
}

/* A file of one record: LOADNIL 1, RETURN 1. */
static const uint8_t file[64] = {
    'R', 'I', 'T', 'E', '0', '4', '0', '0', 0, 0, 0, 64, 0, 0, 0, 0, 0, 0, 0, 0,
    'I', 'R', 'E', 'P', 0, 0, 0, 36, 0, 0, 0, 0,
    0, 0, 0, 24, 0, 1, 0, 2, 0, 0, 0, 0, 0, 0, 0, 4, 17, 1, 61, 1, 0, 0, 0, 0,
    'E', 'N', 'D', 0, 0, 0, 0, 8,
};

/* The place of its instructions, and those of its number of children and of its END section. */
#define CODE 48
#define CHILDREN 40
#define END 56

/* The visits of a load of the file with so many children and an LVAR section without strings. */
static uint32_t visits_of(uint16_t children) {
    static const uint8_t lvar[12] = {'L', 'V', 'A', 'R', 0, 0, 0, 12, 0, 0, 0, 0};
    uint8_t walked[sizeof file + sizeof lvar];
    uint32_t records[BLOTHEATH_RECORD_WORDS];
    memcpy(walked, file, END);
    memcpy(walked + END, lvar, sizeof lvar);
    memcpy(walked + END + sizeof lvar, file + END, sizeof file - END);
    walked[CHILDREN] = children >> 8;
    walked[CHILDREN + 1] = children & 255;
    return blotheath_load(LENT(walked), DESKTOP, LENT(records), NONE, NONE, NONE, NONE, NONE, NONE, NONE, NONE).visits;
}

/* What an examination of the file answers with ADD of a register in the place of LOADNIL. */
static uint32_t examined_adding(uint8_t a) {
    uint8_t changed[sizeof file];
    uint32_t records[BLOTHEATH_RECORD_WORDS];
    memcpy(changed, file, sizeof changed);
    changed[CODE] = 69;
    changed[CODE + 1] = a;
    return blotheath_examine(LENT(changed), DESKTOP, EVERYTHING, LENT(records), NONE, NONE, NONE, NONE, NONE, NONE, NONE, NONE).refusal;
}

/* The file with two constants: the text "a\0b", and 123456789012 in eight bytes. */
static const uint8_t constants[80] = {
    'R', 'I', 'T', 'E', '0', '4', '0', '0', 0, 0, 0, 80, 0, 0, 0, 0, 0, 0, 0, 0,
    'I', 'R', 'E', 'P', 0, 0, 0, 52, 0, 0, 0, 0,
    0, 0, 0, 40, 0, 1, 0, 2, 0, 0, 0, 0, 0, 0, 0, 4, 17, 1, 61, 1,
    0, 2, 0, 0, 3, 'a', 0, 'b', 0, 3, 0, 0, 0, 0x1c, 0xbe, 0x99, 0x1a, 0x14, 0, 0,
    'E', 'N', 'D', 0, 0, 0, 0, 8,
};

/* Two records, TDEF 0 0 0, STOP and STOP: the first has an empty symbol and the second as its child. */
static const uint8_t definition[89] = {
    'R', 'I', 'T', 'E', '0', '4', '0', '0', 0, 0, 0, 89, 0, 0, 0, 0, 0, 0, 0, 0,
    'I', 'R', 'E', 'P', 0, 0, 0, 61, 0, 0, 0, 0,
    0, 0, 0, 28, 0, 1, 0, 1, 0, 1, 0, 0, 0, 0, 0, 5, 107, 0, 0, 0, 118, 0, 0, 0, 1, 0, 0, 0,
    0, 0, 0, 21, 0, 1, 0, 1, 0, 0, 0, 0, 0, 0, 0, 1, 118, 0, 0, 0, 0,
    'E', 'N', 'D', 0, 0, 0, 0, 8,
};

/* The place of TDEF's third operand, and of the first record's number of children. */
#define CHILD 51
#define DEFINITION_CHILDREN 40

/* The choice to enter a child. */
static const uint8_t enter[1] = {2};

/* One record: NOP, EXT2 LOADI 1 300, EXT1 JMP behind the next one, NOP, STOP. */
static const uint8_t prefixed[72] = {
    'R', 'I', 'T', 'E', '0', '4', '0', '0', 0, 0, 0, 72, 0, 0, 0, 0, 0, 0, 0, 0,
    'I', 'R', 'E', 'P', 0, 0, 0, 44, 0, 0, 0, 0,
    0, 0, 0, 32, 0, 1, 0, 2, 0, 0, 0, 0, 0, 0, 0, 12, 0, 116, 3, 1, 1, 44, 115, 38, 0, 1, 0, 118, 0, 0, 0, 0,
    'E', 'N', 'D', 0, 0, 0, 0, 8,
};

/* The place of its instructions, and offsets in them. */
#define PREFIXED_CODE 48
#define AT_EXT2 1
#define AT_EXT1 6
#define AT_NOP 10
#define AT_STOP 11

/* The choice to go on, up to three times. */
static const uint8_t go_on[3] = {0, 0, 0};

/* What an examination of the record answers with another byte at an offset of its instructions. */
static uint32_t examined_with(size_t offset, uint8_t byte) {
    uint8_t changed[sizeof prefixed];
    uint32_t records[BLOTHEATH_RECORD_WORDS];
    memcpy(changed, prefixed, sizeof changed);
    changed[PREFIXED_CODE + offset] = byte;
    return blotheath_examine(LENT(changed), DESKTOP, EVERYTHING, LENT(records), NONE, NONE, NONE, NONE, NONE, NONE, NONE, NONE).refusal;
}

/* Where a run of the record stands after so many choices. */
static uint32_t gone_to(size_t choices) {
    uint32_t records[BLOTHEATH_RECORD_WORDS], frames[2];
    BlotheathFollowed at = blotheath_follow(LENT(prefixed), DESKTOP, EVERYTHING, LENT(records), NONE, NONE, NONE, NONE, NONE, NONE, NONE, NONE,
                                            LENT(frames), go_on, choices);
    return at.refusal == 0 ? at.offset : UINT32_MAX;
}

static void hold_prefixes(void) {
    hold(gone_to(1) == AT_EXT2 && gone_to(2) == AT_EXT1, "an instruction begins at its prefix");
    hold(gone_to(3) == AT_STOP, "a jump behind a prefix counts from the end of its instruction");
    hold(examined_with(AT_NOP, 0) == 0, "prefixes pass");
    hold(examined_with(AT_STOP, 115) == 25, "a prefix is the last byte of its record");
    hold(examined_with(AT_EXT2 + 1, 117) == 25, "another prefix follows a prefix");
    hold(examined_with(AT_EXT2 + 1, 119) == 16, "an unknown opcode behind a prefix");
    hold(examined_with(AT_NOP, 117) == 18, "a jump to the opcode behind a prefix");
    BlotheathFetched fetched = blotheath_fetch(prefixed + PREFIXED_CODE + AT_EXT2, AT_STOP);
    hold(fetched.refusal == 0 && fetched.kind == 0, "a prefix is fetched by itself");
}

/* Depth and parent of the second record where the first has so many children, in the struct and in the words. */
static void hold_parent(uint16_t children, uint32_t depth, uint32_t parent, const char *what) {
    uint8_t changed[sizeof definition];
    uint32_t records[2 * BLOTHEATH_RECORD_WORDS], symbols[2];
    const uint32_t *second = records + BLOTHEATH_RECORD_WORDS;
    BlotheathRecord rows[3];
    memcpy(changed, definition, sizeof changed);
    changed[DEFINITION_CHILDREN] = children >> 8;
    changed[DEFINITION_CHILDREN + 1] = children & 255;
    BlotheathLoaded loaded = blotheath_load_records(LENT(changed), DESKTOP, LENT(records), NONE, NONE, LENT(symbols), NONE, NONE, NONE, NONE, NONE,
                                                    LENT(rows));
    hold(loaded.refusal == 0 && loaded.records == 2, "two records load");
    hold(rows[0].depth == 0 && rows[0].parent == BLOTHEATH_NO_PARENT, "record 0 has no parent");
    hold(rows[1].depth == depth && rows[1].parent == parent, what);
    hold(second[BLOTHEATH_RECORD_WORDS - 2] == depth && second[BLOTHEATH_RECORD_WORDS - 1] == parent, "the words say the same");
    hold(rows[2].depth == 0 && rows[2].parent == 0, "a row past the last record is zeros");
    hold(blotheath_load_records(LENT(changed), DESKTOP, NO_TABLES, LENT(rows)).refusal == 14, "without tables it is refused");
    hold(rows[1].depth == 0 && rows[1].parent == 0, "a refused load leaves zeros");
}

static void hold_parents(void) {
    hold(sizeof(BlotheathRecord) == BLOTHEATH_RECORD_WORDS * sizeof(uint32_t), "a row's struct is its words");
    hold_parent(1, 1, 0, "the child of record 0");
    hold_parent(65535, 1, 0, "more children than there are");
    hold_parent(0, 0, BLOTHEATH_NO_PARENT, "a record that is never reached");
}

/* What is lent for the two records beside so many rows of theirs: one symbol. */
#define LENT_ROWS records, rows * BLOTHEATH_RECORD_WORDS, NONE, NONE, LENT(symbols), NONE, NONE, NONE, NONE, NONE

/* What the four calls answer for the two records under an allowance, with so many rows of records lent, at least one. */
static uint32_t answered(uint32_t max_bytes, uint32_t max_records, size_t rows) {
    uint32_t records[3 * BLOTHEATH_RECORD_WORDS], symbols[2], frames[2 * 2];
    BlotheathRecord structs[2];
    uint32_t followed = blotheath_follow(LENT(definition), max_bytes, max_records, EVERYTHING, LENT_ROWS, LENT(frames), LENT(enter)).refusal;
    uint32_t filled = blotheath_load_records(LENT(definition), max_bytes, max_records, LENT_ROWS, LENT(structs)).refusal;
    uint32_t examined = blotheath_examine(LENT(definition), max_bytes, max_records, EVERYTHING, LENT_ROWS).refusal;
    uint32_t loaded = blotheath_load(LENT(definition), max_bytes, max_records, LENT_ROWS).refusal;
    hold(followed == loaded && filled == loaded && examined == loaded, "the four calls answer alike under an allowance");
    hold((records[0] != 0) == (loaded == 0), "after a refusal by the allowance the tables are zero");
    hold((structs[0].size != 0) == (loaded == 0), "the rows too");
    hold((frames[1] != 0) == (loaded == 0), "the frames too");
    return loaded;
}

static void hold_allowances(void) {
    static const uint32_t most = UINT32_MAX, length = sizeof definition;
    uint32_t records[2 * BLOTHEATH_RECORD_WORDS], again[2 * BLOTHEATH_RECORD_WORDS], symbols[2];
    hold(BLOTHEATH_DESKTOP_BYTES == 65536 && BLOTHEATH_DESKTOP_RECORDS == 1024, "the desktop's allowance");
    hold(BLOTHEATH_PREVIEW_BYTES == 16384 && BLOTHEATH_PREVIEW_RECORDS == 64, "the preview's allowance");
    hold(answered(DESKTOP, 2) == 0 && answered(PREVIEW, 2) == 0, "both allowances have the file");
    hold(answered(length, 2, 2) == 0, "as many bytes and records as there are");
    hold(answered(most, 2, 2) == 0 && answered(length, most, 2) == 0, "a larger number counts as the desktop's");
    hold(answered(length - 1, 2, 2) == 29 && answered(0, most, 2) == 29, "one byte too many, and no byte allowed");
    hold(answered(length, 1, 2) == 29 && answered(most, 0, 1) == 29, "one record too many, and no record allowed");
    hold(answered(length, 1, 1) == 14, "a table without a row for that record either");
    hold(answered(length - 1, 1, 1) == 29, "bytes are tested first");
    hold(blotheath_load(LENT(file), sizeof file - 1, most, NO_TABLES).refusal == 29, "bytes need no table");
    hold(blotheath_load(NONE, 0, 0, NO_TABLES).refusal == 2, "a file without bytes is within every allowance");
    blotheath_load(LENT(definition), DESKTOP, LENT(records), NONE, NONE, LENT(symbols), NONE, NONE, NONE, NONE, NONE);
    blotheath_load(LENT(definition), PREVIEW, LENT(again), NONE, NONE, LENT(symbols), NONE, NONE, NONE, NONE, NONE);
    hold(memcmp(records, again, sizeof records) == 0, "the same rows under both");
}

/* Opcodes by their numbers. */
enum { LOADI = 3, RESCUE = 44, LOADNIL = 17, RETURN = 61, RETSELF = 63, CLASS = 103, TDEF = 107, EXT1 = 115, EXT2, EXT3, STOP };

/* The place of the second record's instruction in the two records. */
#define SECOND_CODE 76

/* What an examination answers for a list of permitted opcodes; a run answers the same. */
static uint32_t examined_for(const uint8_t *bytes, size_t length, const uint8_t *permitted, size_t permitted_len) {
    uint32_t records[2 * BLOTHEATH_RECORD_WORDS], symbols[2], frames[2 * 2];
    uint32_t followed = blotheath_follow(bytes, length, DESKTOP, permitted, permitted_len, LENT(records), NONE, NONE, LENT(symbols), NONE, NONE,
                                         NONE, NONE, NONE, LENT(frames), enter, sizeof enter)
                            .refusal;
    hold(followed == 0 || frames[1] == 0, "after a refusal the frames are zero");
    uint32_t examined = blotheath_examine(bytes, length, DESKTOP, permitted, permitted_len, LENT(records), NONE, NONE, LENT(symbols), NONE, NONE,
                                          NONE, NONE, NONE)
                            .refusal;
    hold(followed == examined, "both calls answer alike for a list");
    hold((records[0] != 0) == (examined == 0), "after a refusal the tables are zero");
    return examined;
}

/* What they answer for every opcode but one. */
static uint32_t examined_without(const uint8_t *bytes, size_t length, uint8_t opcode) {
    uint8_t permitted[BLOTHEATH_OPCODES];
    memcpy(permitted, everything, sizeof permitted);
    permitted[opcode] = 0;
    return examined_for(bytes, length, LENT(permitted));
}

static void hold_lists(void) {
    uint8_t longer[200] = {0}, other[BLOTHEATH_OPCODES] = {0};
    memset(longer, 255, BLOTHEATH_OPCODES);
    hold(examined_for(LENT(file), NONE) == 32 && examined_for(LENT(file), everything, 0) == 32, "an empty list permits nothing");
    hold(examined_for(LENT(file), everything, RETURN) == 32, "an opcode behind the end of a list");
    hold(examined_for(LENT(file), everything, RETURN + 1) == 0, "the last opcode of a list");
    hold(examined_for(LENT(file), LENT(longer)) == 0, "every byte but 0 is a yes, and none behind the 119th is read");
    memset(longer + BLOTHEATH_OPCODES, 1, sizeof longer - BLOTHEATH_OPCODES);
    longer[LOADNIL] = 0;
    hold(examined_for(LENT(file), LENT(longer)) == 32, "nor helps one there");
    other[LOADNIL] = 1;
    other[RETURN] = 128;
    hold(examined_for(LENT(file), LENT(other)) == 0, "what a file holds is enough");
    hold(examined_for(LENT(prefixed), EVERYTHING) == 0, "everything permits prefixes");
    hold(examined_for(LENT(prefixed), everything, EXT1) == 32, "115 yeses permit no prefix, and not STOP");
    hold(examined_without(LENT(prefixed), EXT2) == 32, "an instruction with a prefix needs a yes for the prefix");
    hold(examined_without(LENT(prefixed), LOADI) == 32, "and one for its opcode");
    hold(examined_without(LENT(prefixed), EXT3) == 0, "a prefix that the file does not hold");
    hold(examined_without(LENT(prefixed), RESCUE) == 0, "a byte of an operand is no opcode");
    hold(examined_without(LENT(definition), TDEF) == 32, "an opcode that the file holds");
    hold(examined_without(LENT(definition), CLASS) == 0, "one that it does not hold");
}

static void hold_order_of_lists(void) {
    uint8_t changed[sizeof definition], cut[sizeof prefixed];
    uint32_t records[2 * BLOTHEATH_RECORD_WORDS], symbols[2], frames[2 * 2];
    static const uint8_t unknown[1] = {5};
    memcpy(changed, definition, sizeof changed);
    changed[CHILD] = 1;
    hold(examined_without(LENT(changed), STOP) == 32, "32 at a later instruction comes before 17");
    changed[SECOND_CODE] = RETSELF;
    hold(examined_without(LENT(changed), RETSELF) == 17, "17 of an earlier record comes before 32");
    changed[CHILD] = 0;
    hold(examined_without(LENT(changed), RETSELF) == 32 && examined_without(LENT(changed), STOP) == 32, "32 in each record");
    memcpy(cut, prefixed, sizeof cut);
    cut[PREFIXED_CODE + AT_STOP] = EXT1;
    hold(examined_for(LENT(cut), NONE) == 25, "25 comes before 32");
    cut[PREFIXED_CODE + AT_STOP] = STOP + 1;
    hold(examined_for(LENT(cut), NONE) == 16, "16 comes before 32");
    changed[DEFINITION_CHILDREN + 1] = 0;
    hold(examined_for(LENT(changed), NONE) == 15, "15 comes before 32");
    BlotheathFollowed at = blotheath_follow(LENT(definition), DESKTOP, NONE, LENT(records), NONE, NONE, LENT(symbols), NONE, NONE, NONE, NONE, NONE,
                                            frames, 2, LENT(unknown));
    hold(at.refusal == 14, "too few frames come before 32");
    at = blotheath_follow(LENT(definition), DESKTOP, NONE, LENT(records), NONE, NONE, LENT(symbols), NONE, NONE, NONE, NONE, NONE, LENT(frames),
                          LENT(unknown));
    hold(at.refusal == 32, "32 comes before a choice of an unknown kind");
    hold(blotheath_examine(LENT(definition), 0, 0, NONE, NO_TABLES).refusal == 29, "a load's refusal comes before 32");
}

/* What the examination of a record of the two answers; the tables hold rows exactly where it passes. */
static uint32_t examined_single(const uint8_t *bytes, size_t length, const uint8_t *permitted, size_t permitted_len, uint32_t rec) {
    uint32_t records[3 * BLOTHEATH_RECORD_WORDS], symbols[2], again[3 * BLOTHEATH_RECORD_WORDS], same[2];
    memset(records, 7, sizeof records);
    memset(symbols, 7, sizeof symbols);
    BlotheathLoaded examined = blotheath_examine_record(bytes, length, DESKTOP, permitted, permitted_len, LENT(records), NONE, NONE, LENT(symbols),
                                                        NONE, NONE, NONE, NONE, NONE, rec);
    BlotheathLoaded loaded = blotheath_load(bytes, length, DESKTOP, LENT(again), NONE, NONE, LENT(same), NONE, NONE, NONE, NONE, NONE);
    if (examined.refusal) {
        memset(again, 0, sizeof again);
        memset(same, 0, sizeof same);
        hold(examined.records == 0 && examined.symbols == 0 && examined.visits == 0, "a refused record answers no counts");
    } else {
        hold(memcmp(&examined, &loaded, sizeof loaded) == 0, "a record that passes answers what a load answers");
    }
    hold(memcmp(records, again, sizeof records) == 0 && memcmp(symbols, same, sizeof same) == 0, "rows of a load, or zeros after a refusal");
    return examined.refusal;
}

static void hold_single_records(void) {
    static const uint32_t length = sizeof definition, most = UINT32_MAX;
    uint8_t changed[sizeof definition], no_tdef[BLOTHEATH_OPCODES];
    hold(blotheath_examine_record(NONE, DESKTOP, EVERYTHING, NO_TABLES, 0).refusal == 2, "a file without bytes, by a record");
    hold(blotheath_examine_record(LENT(file), DESKTOP, EVERYTHING, NO_TABLES, most).refusal == 14, "a load's refusal comes before 22");
    hold(blotheath_examine_record(LENT(definition), length - 1, 2, EVERYTHING, NO_TABLES, most).refusal == 29, "29 too");
    hold(examined_single(LENT(definition), EVERYTHING, 0) == 0 && examined_single(LENT(definition), EVERYTHING, 1) == 0, "both records pass");
    hold(examined_single(LENT(definition), EVERYTHING, 2) == 22, "a row that is lent and not used is no record");
    hold(examined_single(LENT(definition), EVERYTHING, most) == 22, "the largest number of a record");
    memcpy(no_tdef, everything, sizeof no_tdef);
    no_tdef[TDEF] = 0;
    hold(examined_single(LENT(definition), LENT(no_tdef), 0) == 32, "the record holds what is not permitted");
    hold(examined_single(LENT(definition), LENT(no_tdef), 1) == 0, "another record holds it");
    hold(examined_single(LENT(definition), NONE, 2) == 22, "22 comes before 32");
    memcpy(changed, definition, sizeof changed);
    changed[DEFINITION_CHILDREN + 1] = 9;
    changed[CHILD] = 8;
    hold(examined_for(LENT(changed), EVERYTHING) == 15, "the tree is not whole");
    hold(examined_single(LENT(changed), EVERYTHING, 0) == 0, "a child that is claimed need not be there");
    changed[CHILD] = 9;
    hold(examined_single(LENT(changed), EVERYTHING, 0) == 17, "one that is not even claimed");
    hold(examined_single(LENT(changed), EVERYTHING, 1) == 0, "the other record passes by itself");
    changed[SECOND_CODE] = STOP + 1;
    hold(examined_single(LENT(changed), EVERYTHING, 1) == 16, "an unknown opcode");
    hold(examined_single(LENT(changed), EVERYTHING, 0) == 17, "each record has its own number");
}

int main(void) {
    uint32_t records[2 * BLOTHEATH_RECORD_WORDS], pool[6], symbols[2], frames[2 * 2];
    BlotheathRecord row[1];
    uint8_t other[sizeof file] = {0}, missing[sizeof definition];

    memset(everything, 1, sizeof everything);
    hold(blotheath_load(NONE, DESKTOP, NO_TABLES).refusal == 2, "a file without bytes is refused by 2");
    hold(blotheath_load(LENT(file), DESKTOP, NO_TABLES).refusal == 14, "without tables a record's row has no place");
    hold(blotheath_load_records(NONE, DESKTOP, NO_TABLES, NONE).refusal == 2, "no rows are filled");
    hold(blotheath_examine(NONE, DESKTOP, EVERYTHING, NO_TABLES).refusal == 2, "the same examined");
    hold(blotheath_follow(NONE, DESKTOP, EVERYTHING, NO_TABLES, NONE, NONE).refusal == 2, "the same followed");
    hold(blotheath_load(LENT(other), DESKTOP, NO_TABLES).refusal == 27, "a file that does not begin with RITE");
    hold(blotheath_load(file, sizeof file - 1, DESKTOP, NO_TABLES).refusal == 28, "a file that is cut short");

    BlotheathLoaded loaded =
        blotheath_load_records(LENT(file), DESKTOP, LENT(records), NONE, NONE, NONE, NONE, NONE, NONE, NONE, NONE, LENT(row));
    hold(loaded.refusal == 0 && loaded.records == 1, "only records need rows");
    hold(loaded.visits == 0, "without LVAR there is no visit");
    hold(visits_of(0) == 1 && visits_of(3) == 4 && visits_of(65535) == 65536, "a visit of record 0, and one for each child");
    hold(row[0].size == 24 && row[0].ilen == 4 && row[0].nlines == 0, "the row is the record's");
    BlotheathFollowed at = blotheath_follow(LENT(file), DESKTOP, EVERYTHING, LENT(records), NONE, NONE, NONE, NONE, NONE, NONE, NONE, NONE,
                                            LENT(frames), NONE);
    hold(at.refusal == 0 && at.finished == 0 && at.frames == 1 && at.offset == 0, "without choices a run stands at its start");
    hold(blotheath_examine(LENT(file), DESKTOP, EVERYTHING, LENT(records), NONE, NONE, NONE, NONE, NONE, NONE, NONE, NONE).refusal == 0, "it passes");

    BlotheathText code = blotheath_instructions(LENT(file), LENT(records), 0);
    hold(code.refusal == 0 && code.place == 48 && code.length == 4, "the instructions are found");
    hold(blotheath_instructions(NONE, NONE, 0).refusal == 22, "lookups without tables: instructions");
    hold(blotheath_instructions(NONE, LENT(records), 0).refusal == 22, "lookups without a file");
    hold(blotheath_handler(NONE, NONE, 0, 0).refusal == 22, "handler");
    hold(blotheath_pool(NONE, NONE, NONE, 0, 0).refusal == 22, "pool");
    hold(blotheath_symbol(NONE, NONE, NONE, 0, 0).refusal == 22, "symbol");
    hold(blotheath_name(NONE, NONE, NONE, NONE, 0, 0).refusal == 22, "name");
    hold(blotheath_debug_file(NONE, NONE, NONE, NONE, NONE, 0, 0).refusal == 22, "debug file");
    hold(blotheath_line(NONE, NONE, 0, 0).refusal == 22, "line");
    BlotheathLookedLine line = blotheath_line(LENT(records), NONE, 0, 0);
    hold(line.refusal == 0 && line.found == 0, "a record without lines");

    hold(blotheath_load(LENT(constants), DESKTOP, LENT(records), NONE, LENT(pool), NONE, NONE, NONE, NONE, NONE, NONE).refusal == 0,
         "a text with a zero byte inside loads");
    BlotheathConstant text = blotheath_pool(LENT(constants), LENT(records), LENT(pool), 0, 0);
    hold(text.refusal == 0 && text.kind == 0 && text.length == 3 && memcmp(constants + text.place, "a\0b", 3) == 0,
         "its zero byte is part of it");
    BlotheathConstant number = blotheath_pool(LENT(constants), LENT(records), LENT(pool), 0, 1);
    hold(number.refusal == 0 && number.kind == 1 && number.integer == INT64_C(123456789012), "eight bytes, high byte first");

    at = blotheath_follow(LENT(definition), DESKTOP, EVERYTHING, LENT(records), NONE, NONE, LENT(symbols), NONE, NONE, NONE, NONE, NONE,
                          LENT(frames), LENT(enter));
    hold(at.refusal == 0 && at.frames == 2 && at.record == 1 && at.offset == 0, "the child of TDEF is entered");
    hold(frames[0] == 0 && frames[1] == 4, "the frame below stands behind TDEF");
    memcpy(missing, definition, sizeof missing);
    missing[CHILD] = 1;
    hold(blotheath_examine(LENT(missing), DESKTOP, EVERYTHING, LENT(records), NONE, NONE, LENT(symbols), NONE, NONE, NONE, NONE, NONE).refusal == 17,
         "a third operand that names no child");

    hold(examined_adding(0) == 0, "ADD touches the two registers that there are");
    hold(examined_adding(1) == 17, "ADD touches the register behind the last one");

    hold_prefixes();
    hold_parents();
    hold_allowances();
    hold_lists();
    hold_order_of_lists();
    hold_single_records();
    hold(blotheath_fetch(NONE).refusal == 24, "an instruction of no bytes");
    hold(blotheath_fetch(file + code.place, code.length).a == 1, "an instruction");
    hold(blotheath_line_at(NONE, 0).found == 0, "a map without entries");
    return wrong;
}
