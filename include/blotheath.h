/* The C boundary of Blotheath (libblotheath.a): loads, examines and follows compiled Ruby patterns, .mrb files of mruby 4.0 (RITE0400).

   Every call is total: it ends on every input, reads and writes nothing outside the slices that it is lent, and refuses by a number of the list
   below. That is proved of the call's code; what a caller owes stands here.

   Slices. A slice is a pointer and the number of its elements, in memory that is there for the whole call and aligned for its type. No two slices
   of one call overlap, those that are only read, as the file, the permitted opcodes and the choices, no less than tables, frames and rows. A pointer
   may be NULL where its number is 0: that is a file without bytes, a table without rows, no permitted opcode, no choices. What is lent to be filled
   may hold anything before the call.

   Threads. Calls share nothing and keep nothing: any number of them may go on at once, as long as no slice that one of them writes is lent to
   another. Slices that are only read may be shared.

   Stack. No theorem bounds it. blotheath_load and blotheath_load_records need at most 448 KiB of stack, blotheath_examine, blotheath_examine_record
   and blotheath_follow at most 512 KiB: a chain of 1,024 records is the deepest, and the host's tests run it in threads of that stack. Every other
   call takes under 1 KiB, as measured. What a compiler writes needs far less: some 10 KiB for a load, 70 KiB for an examination or a run, and half a
   KiB for each level of nesting.

   Allowances. blotheath_load, blotheath_load_records, blotheath_examine, blotheath_examine_record and blotheath_follow are told, directly behind the
   file, how many bytes and how many records it may have: max_bytes and max_records. The desktop's allowance is 65,536 and 1,024, that of the web's
   preview page 16,384 and 64, as the constants below say. A number that is larger than the desktop's counts as the desktop's, each of the two by
   itself. 0 is an allowance too: under 0 bytes every file that has a byte is refused, under 0 records only a file without records loads.
   A file of more bytes than its allowance is refused by 29, whatever they are; one of more than 65,536 bytes by 1 under every allowance. Records are
   counted as they are read, those that lie over each other too, and the one that is read decides: under 64 the 65th is refused by 29 as soon as its
   first 16 bytes are there, whatever follows them, also in a file of 1,025 records. Where the lent table has no row for that record either, it is
   refused by 14: with 70 rows lent a file of 100 records meets 29 under 64, with 64 rows lent 14. Under 1,024 records it is always 14.
   A file that is accepted under one allowance gives the same answer and the same rows, in tables of the same lengths, under every allowance that is
   nowhere smaller. An examination or a run is one of a file that loads under the allowance of its call: where the load is refused by 29, so are they.

   Permitted opcodes. blotheath_examine, blotheath_examine_record and blotheath_follow are told, directly behind the allowance, which opcodes a file
   may hold: permitted has a byte for each of the 119 opcodes (BLOTHEATH_OPCODES), byte n for opcode n, which is 0 for no and anything else for yes.
   Opcodes count from 0 in the order of mruby's ops.h, as `blotheath opcodes` lists them: CLASS is 103. A byte that is missing is a no: a shorter list
   permits none of the opcodes behind its end, and NULL with length 0 permits nothing. Bytes behind the 119th are not read. To permit everything, set
   all 119 to 1: the prefixes 115 to 117 and STOP, 118, with which a compiled pattern ends, are opcodes too.
   Every instruction of every record that is examined is held against the list, one that no run reaches no less than others; bytes of operands are no
   opcodes. An instruction with a prefix needs two yeses, that of its prefix and that of the opcode behind it. A file that holds what is not permitted
   is refused by 32, and the run of a file that passes meets permitted opcodes only. Permitting more never turns a pass into a refusal; a file that
   was refused by 32 may then pass, or meet another number, as 17. With everything permitted there is no 32. Loads take no list.

   Refusals. 0 is none, and no refusal is 0.
    1  the file has more than 65,536 bytes
    2  the file has under 20 bytes, those of its header
    3  the file's major version is not 04
    4  the file has under 32 bytes, those of its header and a section
    5  a section begins with a mark that is none of IREP, LVAR, DBG and END
    6  a second IREP, LVAR or DBG, or LVAR or DBG before IREP
    7  a read or a section size passes the file's end, or in DBG the section's
    8  an IREP, LVAR or END section or a record has size 0
    9  a symbol or a name has a zero byte inside, or a symbol or a pool string has none behind it
   10  a constant is of an unknown kind
   11  LVAR: a record without locals (nlocals 0), or a name that is neither 65535 nor below the number of strings
   12  DBG: a file's start not above that of the file before, a name or a kind out of range, a packed number of more than five bytes, or a debug
       record's size that is not that of its bytes
   13  a line's position is above 4294967295
   14  a row that is needed has no place in its lent table, or is that of the 1,025th record where 1,024 are allowed; in blotheath_follow also
       fewer rows of frames than the file has records
   15  the records are not one whole tree by their numbers of children
   16  in a record, an opcode above 118 or a cut instruction, behind a prefix or not, or no instruction at all
   17  an operand is not below the registers, constants, symbols or children that its record has, or a register that an instruction touches is
       not below its record's number of registers
   18  a jump, or the next step, goes to where no instruction begins
   19  a handler's target is where no instruction begins
   20  the positions of a record's line map fall
   21  a choice's kind is above 4, or its body is cut
   22  a lookup's record or index has no row, its row points outside the file or its table, or a constant's kind or length is unknown; in
       blotheath_examine_record the file has no record of the number that is asked for
   23  fetch: the opcode is above 118
   24  fetch: too few bytes
   25  in a record, a prefix opcode (115 to 117) is the last byte, or another prefix opcode follows it
   27  the file is no compiled pattern: its first four bytes are not RITE
   28  the file is cut short: it has fewer bytes than its header states
   29  the file has more bytes than its allowance, though at most 65,536; or a record that is read is one more than its allowance, though at most
       the 1,024th, and its lent table has a row for it
   32  in a record, an opcode or a prefix that the list of permitted opcodes says no to
   A load refuses by 1 to 14 and 27 to 29, an examination by 1 to 20, 25, 27 to 29 and 32, that of a single record by 1 to 14, 16 to 20, 22, 25, 27 to
   29 and 32, follow by 1 to 21, 25, 27 to 29 and 32, lookups by 22, fetch by 23 and 24. 1, 29 for bytes, 2, 27, 28, 3 and 4 are tested in this order;
   5 to 14, and 29 for records in 14's place, are met where reading forward meets them; the others stand with their calls. */
#ifndef BLOTHEATH_H
#define BLOTHEATH_H

#include <stddef.h>
#include <stdint.h>

#ifdef __cplusplus
extern "C" {
#endif

/* Allowances: the desktop's, which is the largest, and that of the web's preview page. */
#define BLOTHEATH_DESKTOP_BYTES 65536
#define BLOTHEATH_DESKTOP_RECORDS 1024
#define BLOTHEATH_PREVIEW_BYTES 16384
#define BLOTHEATH_PREVIEW_RECORDS 64

/* How many opcodes there are, and how many bytes of a list of permitted ones are read. */
#define BLOTHEATH_OPCODES 119

/* The answer of a load or an examination: the refusal's number, and then every count is 0; or 0, the rows used of each table, and the visits that
   the walk over the local names (LVAR) made. The walk visits record 0 and then, of each record that it visits, as many children as its row says
   (rlen). A visit past the last record reads nothing, and is counted too. So visits is
       0                           without an LVAR section; and with one
       the number of records       where they are one whole tree, as in every file that passes
       less than that, and not 0   where the records from number visits on are never reached, and have no names
       more than that              where the visits that are more went past the last record
   It is 67,107,841 at most, for 1,024 records of 65,535 children each. Visits past the last record are not made one by one: they take no time. */
typedef struct {
    uint32_t refusal;
    uint32_t records;
    uint32_t handlers;
    uint32_t pool;
    uint32_t symbols;
    uint32_t strings;
    uint32_t names;
    uint32_t filenames;
    uint32_t files;
    uint32_t lines;
    uint32_t visits;
} BlotheathLoaded;

/* The words of a record's row, and the parent of a record that has none. */
#define BLOTHEATH_RECORD_WORDS 21
#define BLOTHEATH_NO_PARENT 65535

/* Loads a file under an allowance into nine lent tables. Lengths are in words. What the tables hold before the call does not matter; afterwards
   each holds its rows one after another, then zeros up to its end; after a refusal zeros throughout. Words behind the last whole row (a length that
   is no multiple of the row's words) are no row, and are zero too.

   Words of a row. Places count bytes from the file's first, first rows count rows of their table, and are 0 where the number is 0.
   records, 21:  size, nlocals, nregs, rlen, clen, ilen, place of the instructions, then first row and number of its handlers, pool entries,
                 symbols, names, debug files and lines, then depth and parent
   handlers, 4:  kind (0 rescue, 1 ensure; any byte loads), begin, end, target: offsets in the record's instructions
   pool, 3:      kind, place and length of the value's bytes. 0 and 2 string, without the zero behind it; zero bytes inside are part of it.
                 1 int32 and 3 int64, high byte first. 5 float64, low byte first. 7 big integer, its base in one byte, then its digits
   symbols, 2:   place, length of the text without its zero
   strings, 2:   the same, of a local variable's name
   names, 1:     row of strings, or 65535 for unnamed
   filenames, 2: the same as symbols, of a source file's name
   files, 4:     start, row of filenames, first row and number of its lines
   lines, 2:     position, line

   Depth and parent. Records nest as the blocks of a pattern do: behind a record come the rlen records that it contains, each followed by those
   that it contains itself. A walk from record 0 gives each record that it reaches its parent, the number of the record that contains it, and its
   depth, one more than its parent's. Record 0 has depth 0 and no parent, which is BLOTHEATH_NO_PARENT. So have the records that the walk does not
   reach, since those before them contain too few; behind such a record none is reached. A record may claim to contain more than there are. All
   this is the same with an LVAR section and without. In a file that passes every record is reached. In any file a parent's number is below the
   numbers of the records that it contains.

   How much to lend. A load clears all that it is lent, so lend by the file's length: over fitting tables it loads real files some six times as
   fast as the Rust that it was ported from, over nine tables of 64 KiB more slowly than that Rust. For a file of n bytes:
                 what a compiler writes    records that do not overlap
   records       n / 32 + 1                n / 20, at most 1,024
   handlers      n / 32 + 1                n / 13
   pool          n / 12 + 1                n / 3
   symbols       n / 12 + 1                n / 3
   strings       n / 24 + 1                n / 2
   names         n / 16 + 1                n / 2
   filenames     n / 64 + 1                n / 2
   files         n / 32 + 1                n / 11
   lines         n / 12 + 1                n / 2
   Try the first column, after 14 the second. Only a hostile file needs more: up to 1,024 records may read the same bytes as handlers, pool
   entries and symbols of their own, so after 14 again lend more rows of those three and 1,024 records, or take 14 for the answer. Of records no
   more rows are needed than are allowed, and one more where 29 is to be told from 14. */
BlotheathLoaded blotheath_load(const uint8_t *file, size_t file_len,
                               uint32_t max_bytes, uint32_t max_records,
                               uint32_t *records, size_t records_len,
                               uint32_t *handlers, size_t handlers_len,
                               uint32_t *pool, size_t pool_len,
                               uint32_t *symbols, size_t symbols_len,
                               uint32_t *strings, size_t strings_len,
                               uint32_t *names, size_t names_len,
                               uint32_t *filenames, size_t filenames_len,
                               uint32_t *files, size_t files_len,
                               uint32_t *lines, size_t lines_len);

/* A record's row, its words in their order. A kind's name is the first of the record's rows of that kind, and n before the name their number.
   depth and parent are those of blotheath_load; parent is BLOTHEATH_NO_PARENT where there is none. */
typedef struct {
    uint32_t size;
    uint32_t nlocals;
    uint32_t nregs;
    uint32_t rlen;
    uint32_t clen;
    uint32_t ilen;
    uint32_t place;
    uint32_t handlers;
    uint32_t nhandlers;
    uint32_t pool;
    uint32_t npool;
    uint32_t symbols;
    uint32_t nsymbols;
    uint32_t names;
    uint32_t nnames;
    uint32_t files;
    uint32_t nfiles;
    uint32_t lines;
    uint32_t nlines;
    uint32_t depth;
    uint32_t parent;
} BlotheathRecord;

/* Loads as blotheath_load does, with the same answer, refusals and tables, and then fills lent rows: row i is what the words of record i say, and
   zeros past the last record, so after a refusal every row is zeros. The length is in rows. Fewer rows than records hold the first ones, and that
   is no refusal. */
BlotheathLoaded blotheath_load_records(const uint8_t *file, size_t file_len,
                                       uint32_t max_bytes, uint32_t max_records,
                                       uint32_t *records, size_t records_len,
                                       uint32_t *handlers, size_t handlers_len,
                                       uint32_t *pool, size_t pool_len,
                                       uint32_t *symbols, size_t symbols_len,
                                       uint32_t *strings, size_t strings_len,
                                       uint32_t *names, size_t names_len,
                                       uint32_t *filenames, size_t filenames_len,
                                       uint32_t *files, size_t files_len,
                                       uint32_t *lines, size_t lines_len,
                                       BlotheathRecord *rows, size_t rows_len);

/* Examines a file: loads it as above, then tests it: 15 first, then record by record 16 and 25 in one reading of its instructions, 32 at all of them,
   17 and 18 at each instruction in turn, 19, 20. So 32 at a record's last instruction comes before 17 or 18 at its first, and behind every number of
   the records before it. A file that loads passes where it meets none of 15 to 20, 25 and 32. The answer and the tables are those of a load; after a
   refusal every table is zero throughout.

   Instructions. The first one of a record begins at offset 0, and each begins where the one before it ends. An instruction is its opcode and
   operands, of the kinds that stand with blotheath_fetch, or a prefix opcode and these behind it; it begins at its prefix. 115 widens the first
   operand of B, BB, BBB, BS and BSS to two bytes, high byte first, 116 the second of BB and BBB, 117 both, each where the kind has it. What a prefix
   does not widen stays as it is, the operands of S and W among them. A jump counts from the end of its instruction. The opcode behind a prefix is
   no place where an instruction begins: a jump there is 18, a handler's target 19.

   Registers. An instruction touches the register of every operand that names one, and these, by its operands a, b and c, wide where a prefix
   widens them; a range that ends below its start has none. n is the low four bits of c, in SUPER of b, k the next four; n or 2k is one register
   where n or k is 15.
   a+1              SETMCNST, GETIDX, ADD, SUB, MUL, DIV, EQ, LT, LE, GT, GE, ARYCAT, STRCAT, HASHCAT, RANGE_INC, RANGE_EXC, CLASS, DEF
   a+1, a+2         SETIDX
   a+1 to a+n+2k    SSEND, SEND; to a+n+2k+1: SSENDB, SENDB, SUPER
   a+1 to a+b-1     ARRAY; to a+b: ARYPUSH; to a+c: APOST; to a+2b-1: HASH; to a+2b: HASHADD
   b+1 to b+c-1     ARRAY2 */
BlotheathLoaded blotheath_examine(const uint8_t *file, size_t file_len,
                                  uint32_t max_bytes, uint32_t max_records,
                                  const uint8_t *permitted, size_t permitted_len,
                                  uint32_t *records, size_t records_len,
                                  uint32_t *handlers, size_t handlers_len,
                                  uint32_t *pool, size_t pool_len,
                                  uint32_t *symbols, size_t symbols_len,
                                  uint32_t *strings, size_t strings_len,
                                  uint32_t *names, size_t names_len,
                                  uint32_t *filenames, size_t filenames_len,
                                  uint32_t *files, size_t files_len,
                                  uint32_t *lines, size_t lines_len);

/* Examines one record of a file by itself: loads the file as above, then tests that it has a record of the number rec, counted from 0 (22), and then
   that record alone, as blotheath_examine tests each: 16 and 25 in one reading of its instructions, 32 at all of them, 17 and 18 at each instruction
   in turn, 19, 20. Records are counted as the file has them: a row that is lent and not used is none.
   Neither the tree (15) nor any other record counts. An operand that names a child is held against the record's own number of children, rlen; whether
   there are so many records does not matter. So a pass says nothing of the rest of the file, nor of a run. The answer and the tables are those of a
   load of the whole file; after a refusal, by 22 too, every table is zero throughout.

   Two facts are proved, for one allowance and one list of permitted opcodes.
   A file passes blotheath_examine exactly where its records are one whole tree and each of them passes by itself.
   Where a file passed blotheath_examine and was changed, and the changed file loads, one record may answer for all: if there are as many records as
   before, this record has as many children (rlen) as before, and every other record has the same nregs, rlen, numbers of constants and symbols,
   handlers, line map and instruction bytes, wherever they stand now, then blotheath_examine_record of this record answers exactly what
   blotheath_examine answers: the same number, or the same pass, with the same tables. */
BlotheathLoaded blotheath_examine_record(const uint8_t *file, size_t file_len,
                                         uint32_t max_bytes, uint32_t max_records,
                                         const uint8_t *permitted, size_t permitted_len,
                                         uint32_t *records, size_t records_len,
                                         uint32_t *handlers, size_t handlers_len,
                                         uint32_t *pool, size_t pool_len,
                                         uint32_t *symbols, size_t symbols_len,
                                         uint32_t *strings, size_t strings_len,
                                         uint32_t *names, size_t names_len,
                                         uint32_t *filenames, size_t filenames_len,
                                         uint32_t *files, size_t files_len,
                                         uint32_t *lines, size_t lines_len,
                                         uint32_t rec);

/* Where a run stands. refusal: 0, or one of 1 to 21, 25, 27 to 29 and 32. finished: 1 where the run is finished, and then all else is 0. Else the top
   frame's record and offset, its line where found is 1, and the number of frames. The offset is where an instruction begins, at its prefix where it
   has one. */
typedef struct {
    uint32_t refusal;
    uint32_t finished;
    uint32_t record;
    uint32_t offset;
    uint32_t found;
    uint32_t line;
    uint32_t frames;
} BlotheathFollowed;

/* Follows the run of a file along choices: loads it, tests that the frame table has as many rows as the file has records (14), examines it, reads
   all choices (21), then runs from the first record's start. A choice is a byte: 0 go on, 1 jump, 2 enter the child that an operand names (the
   second of LAMBDA, BLOCK, METHOD and EXEC, the third of TDEF and SDEF), 3 caught by handler h (two more bytes, high byte first), 4 leave; one
   that is not open is go on. Behind a prefix an opcode does what it does without one. The frame table has rows of two words, record and offset: the
   frames, lowest first, then zeros. After a refusal every table, frames too, is zero throughout. */
BlotheathFollowed blotheath_follow(const uint8_t *file, size_t file_len,
                                   uint32_t max_bytes, uint32_t max_records,
                                   const uint8_t *permitted, size_t permitted_len,
                                   uint32_t *records, size_t records_len,
                                   uint32_t *handlers, size_t handlers_len,
                                   uint32_t *pool, size_t pool_len,
                                   uint32_t *symbols, size_t symbols_len,
                                   uint32_t *strings, size_t strings_len,
                                   uint32_t *names, size_t names_len,
                                   uint32_t *filenames, size_t filenames_len,
                                   uint32_t *files, size_t files_len,
                                   uint32_t *lines, size_t lines_len,
                                   uint32_t *frames, size_t frames_len,
                                   const uint8_t *choices, size_t choices_len);

/* Lookups read a file and tables of any contents, and write nothing. refusal: 0, or 22, and then all else is 0. A record row of size 0 is none.

   Texts. A text is the length bytes of the file from place on. It is not a C string: a constant's text may have zero bytes inside, and no zero
   need be behind a name. Copy, compare and print it by its length (memcpy, memcmp, fwrite), not with strlen, strcmp or %s, which see less of
   it or pass its end. After a load, symbols, names of locals and names of source files have no zero byte inside. */

typedef struct {
    uint32_t refusal;
    uint32_t place;
    uint32_t length;
} BlotheathText;

/* The place and length of a record's instructions. */
BlotheathText blotheath_instructions(const uint8_t *file, size_t file_len, const uint32_t *records, size_t records_len, uint32_t rec);

typedef struct {
    uint32_t refusal;
    uint32_t kind;
    uint32_t begin;
    uint32_t end;
    uint32_t target;
} BlotheathHandler;

BlotheathHandler blotheath_handler(const uint32_t *records, size_t records_len, const uint32_t *handlers, size_t handlers_len,
                                   uint32_t rec, uint32_t index);

/* kind: 0 a text's place and length, 1 a whole number, 2 a float, 3 a big integer's place and length (its base, then its digits). Every NaN
   of a file is one NaN here. */
typedef struct {
    uint32_t refusal;
    uint32_t kind;
    uint32_t place;
    uint32_t length;
    int64_t integer;
    double real;
} BlotheathConstant;

BlotheathConstant blotheath_pool(const uint8_t *file, size_t file_len, const uint32_t *records, size_t records_len,
                                 const uint32_t *pool, size_t pool_len, uint32_t rec, uint32_t index);

BlotheathText blotheath_symbol(const uint8_t *file, size_t file_len, const uint32_t *records, size_t records_len,
                               const uint32_t *symbols, size_t symbols_len, uint32_t rec, uint32_t index);

/* named: 1 where the local variable has a name, else 0. */
typedef struct {
    uint32_t refusal;
    uint32_t named;
    uint32_t place;
    uint32_t length;
} BlotheathName;

BlotheathName blotheath_name(const uint8_t *file, size_t file_len, const uint32_t *records, size_t records_len,
                             const uint32_t *strings, size_t strings_len, const uint32_t *names, size_t names_len,
                             uint32_t rec, uint32_t index);

/* place and length are those of the source file's name; first and number are rows of lines. */
typedef struct {
    uint32_t refusal;
    uint32_t start;
    uint32_t place;
    uint32_t length;
    uint32_t first;
    uint32_t number;
} BlotheathDebugFile;

BlotheathDebugFile blotheath_debug_file(const uint8_t *file, size_t file_len, const uint32_t *records, size_t records_len,
                                        const uint32_t *filenames, size_t filenames_len, const uint32_t *files, size_t files_len,
                                        const uint32_t *lines, size_t lines_len, uint32_t rec, uint32_t index);

typedef struct {
    uint32_t refusal;
    uint32_t found;
    uint32_t line;
} BlotheathLookedLine;

/* The line of an offset of a record, by its whole map. */
BlotheathLookedLine blotheath_line(const uint32_t *records, size_t records_len, const uint32_t *lines, size_t lines_len,
                                   uint32_t rec, uint32_t offset);

/* An instruction. refusal: 0, 23 or 24: 24 on no bytes, then 23, then 24. kind: 0 Z, 1 B, 2 BB, 3 S, 4 BBB, 5 BS, 6 W, 7 BSS: an
   operand for each letter, B of one byte, S of two, W of three, high byte first, Z none. Operands that the kind lacks are 0; so is all else after
   a refusal. */
typedef struct {
    uint32_t refusal;
    uint32_t kind;
    uint32_t a;
    uint32_t b;
    uint32_t c;
} BlotheathFetched;

/* The instruction at the start of these bytes; more bytes than it needs are ignored. A prefix opcode is fetched by itself, of kind Z: the opcode
   behind it is the next byte, and a caller reads the operands that the prefix widens. */
BlotheathFetched blotheath_fetch(const uint8_t *code, size_t code_len);

/* A line, where found is 1; where it is 0 the position has none. */
typedef struct {
    uint32_t found;
    uint32_t line;
} BlotheathLine;

/* The line of a position in a map of rows of two words, position and line; an odd word at the end is no row. */
BlotheathLine blotheath_line_at(const uint32_t *map, size_t map_len, uint32_t pos);

#ifdef __cplusplus
}
#endif

#endif
