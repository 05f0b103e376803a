/*
 * abezolit.h: the service, as a host written in C or C++ calls it. The code is libservice.a, for x86-64.
 *
 * These rules hold for every call; what is said at a call comes on top of them.
 *
 * Numbers   Every number, in and out, is a size_t, and none is cut to 16 bits: a number that no 16-bit word
 *           could be is never taken for one that it could.
 *
 * Slices    A byte slice is two arguments, where it starts and how many bytes it has. The pointer is never
 *           null, not even with length 0. Two slices of one call do not overlap, and nobody else writes to a
 *           slice while the call runs. This is for the host to see to; the service cannot test it. Nothing
 *           outside a slice is read or written, and a slice of const bytes is only read.
 *
 * Answers   An answer is a code, or a struct of numbers whose first member is the code. The code is ABZ_OK
 *           where the call did what is said of it, and else the cause of the refusal. Where several causes
 *           hold, the one that is named first at the call is given. Only abz_report has no code: it never refuses.
 *
 * Refusals  A refusal changes no byte of any slice, and every other member of its answer is 0, unless it is said at
 *           the call that a member then tells the place of the fault.
 *
 * Memory    Nothing is kept between calls: the same arguments always give the same answer and the same bytes,
 *           and calls on different slices may run at the same time.
 */
#ifndef ABEZOLIT_H
#define ABEZOLIT_H

#include <stddef.h>
#include <stdint.h>

#ifdef __cplusplus
extern "C" {
#endif

/*
 * The codes, in the order in which causes are named; the calls on command lines each have an order of their own.
 * They are octal numbers wherever they are written down, so code 41 is 041 here, and printed by %zo.
 */
enum {
    ABZ_OK           = 0,
    ABZ_INCONSISTENT = 040, /* the image is not a consistent pack, as told under Packs */
    ABZ_NAME         = 015, /* a name or an extension is not legal */
    ABZ_ARGUMENT     = 041, /* an argument that the call does not take, as a buffer of another size */
    ABZ_NO_USER      = 013, /* a file is to be created under a UIC that is not in the pack's list */
    ABZ_EXISTENCE    = 2,   /* there is no such file; for an open, it is open for output; for a new name, there is one already */
    ABZ_RIGHT        = 6,   /* the caller lacks the right, as told under Rights */
    ABZ_NOT_LINKED   = 5,   /* a contiguous file is to be opened for extension */
    ABZ_KIND         = 043, /* the file is of the other kind than the call takes */
    ABZ_WRITER       = 4,   /* the file has a writer already */
    ABZ_OPEN         = 014, /* the file is open, and the call takes closed ones only */
    ABZ_NOT_OPEN     = 045, /* the file is not open in the way that the call needs */
    ABZ_NO_BLOCK     = 044, /* there is no such block, or no such position in a file's payloads */
    ABZ_OPENS        = 3,   /* the file has 62 opens already, the most there can be */
    ABZ_NO_ENTRY     = 012, /* the contents have no empty entry for another file */
    ABZ_NO_ROOM      = 042, /* there is no free block, or too few of them in a row */
    ABZ_CONVERSION   = 060, /* what is to be converted is not of its set, or too large */

    ABZ_GRAMMAR          = 050, /* the command line is not of the grammar, as told under Command lines */
    ABZ_NO_SPECIFICATION = 051, /* the command line has no such side, or no such specification there */
    ABZ_SHORT_BUFFER     = 052, /* the buffer is too short for what is to be written */
    ABZ_LONG_LINE        = 053, /* the command line is too long */
    ABZ_NUMBER           = 054  /* a unit, group or user of the command line is over its bound */
};

typedef struct {
    size_t code;
    size_t number; /* with ABZ_OK what the call says, else as under Refusals */
} abz_answer;

/*
 * Conversions
 *
 * Three pairs, each the other's inverse. A buffer of characters has exactly the size that is named, with no NUL
 * behind, and characters are ASCII: lower case, bytes with bit 7 set, and signs and blanks among digits are of no set.
 *
 * Each call refuses with, in this order:
 *   ABZ_ARGUMENT    chars_len is not the size named, whatever else is wrong;
 *   ABZ_CONVERSION  as said at the call.
 * A call that writes fills the whole buffer, or refuses and writes nothing.
 */

/*
 * Radix-50, three characters to a word. The codes of the characters are: blank 0, A to Z 1 to 26, $ 27, period 28,
 * 0 to 9 30 to 39; 29 has no character. Characters with codes a, b, c make the word 1600a + 40b + c, so three
 * blanks make 0 and 999 makes 63999, the largest.
 */

/* The word of 3 characters. ABZ_CONVERSION: a byte is none of the 39 characters. */
abz_answer abz_radpk(const uint8_t *chars, size_t chars_len);

/* Writes the 3 characters of a word. ABZ_CONVERSION: the word is 64000 or more, or one of its three codes is 29. */
size_t abz_radup(size_t word, uint8_t *chars, size_t chars_len);

/* The number of 5 decimal digits. ABZ_CONVERSION: a byte is not 0 to 9, or the number is above 65535. */
abz_answer abz_d2bin(const uint8_t *chars, size_t chars_len);

/* Writes a number as 5 decimal digits, leading zeros too. ABZ_CONVERSION: the number is above 65535. */
size_t abz_bin2d(size_t number, uint8_t *chars, size_t chars_len);

/* The number of 6 octal digits. ABZ_CONVERSION: a byte is not 0 to 7, or the number is above 177777 octal (65535). */
abz_answer abz_o2bin(const uint8_t *chars, size_t chars_len);

/* Writes a number as 6 octal digits, leading zeros too. ABZ_CONVERSION: the number is above 177777 octal (65535). */
size_t abz_bin2o(size_t number, uint8_t *chars, size_t chars_len);

/*
 * Packs
 *
 * An image is a whole disk pack as bytes: its users, its list of files, and the files. The host lends it to each
 * call on the pack, and a call that changes the pack does so there. Where an image comes from and where it is kept,
 * in a file for instance, is the host's business: the service opens, reads and writes no file.
 *
 * An image is n blocks of one size, in words of 16 bits, low byte first. Word 0 of it is its form, which decides the
 * measures, whoever calls; that of a new pack is an argument of abz_format. Where a block's bytes, a payload's bytes or
 * a bound is told of below, those of the image's form are meant:
 *
 *   form                             1            2            3
 *   bytes of a block                 512          512          128
 *   bytes of a payload               510          510          126          a block's but for its link, in a linked file;
 *                                                                           a gather buffer's
 *   segments of a block              4            4            1            of 64 words; ALLOC counts in them
 *   entries of a block of contents   16           16           4
 *   n, blocks                        16 to 1024   16 to 4096   16 to 1024
 *   c, blocks of contents            1 to 8       1 to 32      1 to 32
 *   u, UICs                          0 to 64      0 to 64      0 to 60
 *   block of the free map            none         c + 1        none
 *   first block of the bodies        c + 1        c + 2        c + 1        below n: a body is left
 *
 * Form 2 is for larger packs and has a free map; form 3 is that of the 64-word disk. A buffer that has the size of another
 * form is one of a wrong size.
 *
 * The blocks of an image are:
 *
 *   0             the header. Word 0 is the form; word 1 is n; word 2 is c; word 3 is u; then come u UICs, distinct and
 *                 not 0, of those who may own files; every other word is 0.
 *   1 to c        the contents, entries of 16 words. Entry e, counted from 0 and on through the blocks, starts 32 * e
 *                 bytes behind the header's block. An empty entry is all 0; any other is a file's:
 *                     0, 1      name
 *                     2         extension
 *                     3         UIC of the owner
 *                     4         protect code, 0 to 255
 *                     5         kind, ABZ_CONTIGUOUS or ABZ_LINKED
 *                     6         first block
 *                     7         length, in blocks
 *                     8         last block
 *                     9         writer: 0 none, 1 open for update, 2 for output, 3 for extension
 *                     10        readers, how many
 *                     11 to 15  0
 *   c + 1         in form 2 the free map: block b is bit b % 16 of its word b / 16. The bit is 1 for each block that is
 *                 the system's (0 to c + 1) or a file's, and 0 for each that is free and for every number from n up to
 *                 the end of the map, 4095.
 *   up to n - 1   the bodies, each free or of one file. A contiguous file has all blocks from its first to its last,
 *                 and all their bytes. A linked file is a chain: word 0 of each block is the number of the next, 0 in
 *                 the last, and the payload, all bytes behind it, is the file's. One with no block has words 6, 7 and
 *                 8 all 0.
 *
 * A UIC is 256 * group + user. A file is named by four numbers:
 *
 *   name1, name2  1 to 6 of A to Z and 0 to 9, then blanks up to six, as two Radix-50 words, the first three
 *                 characters in name1; abz_radpk makes such words.
 *   extension     0 to 3 of A to Z and 0 to 9, then blanks up to three, as one word; so 0 if there is none.
 *   uic           the owner's. 0 means the caller's: the number caller is taken, which is the UIC of the user for
 *                 whom the host calls.
 *
 * A name or extension of another shape is not legal, nor is any number from 64000 up. A caller or uic may be any
 * number; no file has a UIC that is not in the pack's list.
 *
 * A pack is consistent if the image has all that is said above and is exactly its n blocks long, and if
 *   - each file has a legal name and extension and a UIC of the list, and no two files have all four numbers alike;
 *   - each block of a file is a body, and no block is held twice, by two files or by one;
 *   - a contiguous file has at least one block, and its last block is first block + length - 1;
 *   - a linked file's chain has exactly as many blocks as its length says and ends at its last block;
 *   - a contiguous file's writer is 0 or 1, a linked one's 0, 2 or 3;
 *   - a file's readers, and 1 more if it has a writer, are at most 62.
 * What the free blocks and those of contiguous files hold does not matter.
 *
 * Every call on an image but abz_format takes any bytes for it, of any length, and refuses with ABZ_INCONSISTENT
 * before all else where they are no consistent pack; abz_report then tells why. abz_many puts this code into its
 * answers. No call makes a consistent pack inconsistent.
 */

/* The measures of form 1. Word 0 of an image says whether they are its. */
enum {
    ABZ_FORM           = 1,
    ABZ_BLOCK_BYTES    = 512,
    ABZ_PAYLOAD_BYTES  = 510,  /* of a block of a linked file: all behind its link */
    ABZ_BLOCK_SEGMENTS = 4,
    ABZ_BLOCKS_LEAST   = 16,
    ABZ_BLOCKS_MOST    = 1024,
    ABZ_CONTENTS_LEAST = 1,    /* blocks of contents */
    ABZ_CONTENTS_MOST  = 8,
    ABZ_BLOCK_ENTRIES  = 16,   /* of a block of contents */
    ABZ_ENTRY_BYTES    = 32,
    ABZ_UICS_MOST      = 64
};

/* Those of form 2 that are others. */
enum {
    ABZ_FORM_2          = 2,
    ABZ_BLOCKS_MOST_2   = 4096,
    ABZ_CONTENTS_MOST_2 = 32
};

/* Those of form 3 that are others. */
enum {
    ABZ_FORM_3           = 3,
    ABZ_BLOCK_BYTES_3    = 128,
    ABZ_PAYLOAD_BYTES_3  = 126,
    ABZ_BLOCK_SEGMENTS_3 = 1,
    ABZ_CONTENTS_MOST_3  = 32,
    ABZ_BLOCK_ENTRIES_3  = 4,
    ABZ_UICS_MOST_3      = 60
};

/* The kinds of files. */
enum {
    ABZ_CONTIGUOUS = 1,
    ABZ_LINKED     = 2
};

/*
 * Makes an empty pack of an image, whatever that held: block 0 becomes the header with form, n = blocks, c = contents
 * and the UICs in uics, two bytes each, low byte first; blocks 1 to c become 0; in form 2 block c + 1 becomes the map.
 * All other blocks are free then, and keep their bytes, so what earlier files had there can still be seen in the image.
 *   ABZ_ARGUMENT  form is not 1, 2 or 3; blocks or contents are not within the form's bounds, or no body would be left;
 *                 image_len is not that of so many blocks; uics_len is odd, or of more UICs than the form has; a UIC is
 *                 0, or is twice in uics.
 */
size_t abz_format(uint8_t *image, size_t image_len, size_t form, size_t blocks, size_t contents,
                  const uint8_t *uics, size_t uics_len);

typedef struct {
    size_t code;
    size_t kind, first, length, protect, writer, readers; /* words 5, 6, 7, 4, 9 and 10 of the file's entry */
} abz_look_answer;

/*
 * What the entry of a file says. No right is needed, the file may be open, and caller serves only where uic is 0.
 *   ABZ_INCONSISTENT
 *   ABZ_NAME          the name or the extension is not legal;
 *   ABZ_EXISTENCE     there is no such file.
 */
abz_look_answer abz_look(const uint8_t *image, size_t image_len, size_t caller,
                         size_t name1, size_t name2, size_t extension, size_t uic);

/* What a block can be. */
enum {
    ABZ_SYSTEM = 0, /* header, contents or free map: all below the first body */
    ABZ_FREE   = 1, /* a body that no file holds */
    ABZ_HELD   = 2  /* a body that one file holds */
};

typedef struct {
    size_t code;
    size_t kind;         /* one of these three; 0 in a refusal too, so look at the code first */
    size_t entry, place; /* with ABZ_HELD the entry of the file and the block's place in it, from 0; else 0 */
} abz_owner_answer;

/*
 * Whose a block is. Asked for each block from 0 to n - 1 it gives an account of the whole pack: each file shows up
 * length times, once with each place below its length, and what is left is the system's or free.
 *   ABZ_INCONSISTENT
 *   ABZ_NO_BLOCK      block is n or more.
 */
abz_owner_answer abz_owner(const uint8_t *image, size_t image_len, size_t block);

/* The rules of a consistent pack, as abz_report tells the first that an image breaks; behind each what it names. */
enum {
    ABZ_CONSISTENT   = 0, /* none is broken */
    ABZ_RULE_SIZE    = 1, /* the image is not n blocks long, or has no word 1; one of no form is measured as form 1 */
    ABZ_RULE_HEADER  = 2, /* word of block 0, by the bounds of the form: 2 also where no body is left; of two UICs alike
                             the later */
    ABZ_RULE_ENTRY   = 3, /* entry and word: 0 where no legal name begins with it, else 1; 3 a UIC that is not in the list;
                             9 the writer; 10 readers, with the writer */
    ABZ_RULE_NAME    = 4, /* entry, and word 3: an earlier file has all four numbers alike */
    ABZ_RULE_EXTENT  = 5, /* entry and word: 6 the first block is no body (or not 0 where there is none), 7 a contiguous file
                             has no block or ends behind the last, 8 the last block is not where the file ends */
    ABZ_RULE_LINK    = 6, /* entry and block, whose link, before the last place, leads to no body */
    ABZ_RULE_LOOP    = 7, /* entry and block, to which a link leads a second time */
    ABZ_RULE_END     = 8, /* entry and block, the last of a chain, whose link is not 0 */
    ABZ_RULE_SHARED  = 9, /* block, which two files reach, and the entry of the second of them */
    ABZ_RULE_MAP     = 10 /* block, also one from n up, whose bit of the map is wrong: form 2 only */
};

typedef struct {
    size_t rule;
    size_t entry, word, block; /* what the rule names; 0 in each that it does not */
} abz_report_answer;

/*
 * Which rule of a consistent pack an image breaks first, and where; rule is ABZ_CONSISTENT exactly if every other call
 * takes the image for consistent. There is no code and no refusal: any bytes of any length get a report, and nothing is
 * written. Looked at are, in this order: the size; the words of block 0 by number; the entries one by one, of each words
 * 0 to 5 (the name with word 3) and 9 to 15 by number, then words 6 to 8 of a contiguous file, or of a linked one word 6,
 * each link in the order of the chain, word 8 and the last link; then, all entries being right, the bodies by number; and
 * last of all in form 2 the bits of the map by block number.
 */
abz_report_answer abz_report(const uint8_t *image, size_t image_len);

/*
 * Moves between forms 1 and 2: the pack of source is written into target in the other form, where it has the map, and so
 * one block, more or less. The source is only read; the target is written whole, and what it held is not looked at.
 *
 * Block 0 and the contents are copied with the new form and n, opens too, and the map is made where there is one. Each
 * body is copied to the block whose number is one higher (to form 1: one lower), and with the bodies every number of a
 * block that is not 0 rises (falls) by one: the first and last block of each file, and the links of linked files. All
 * other bytes of bodies, of free ones and contiguous files all, are copied as they are. So each file is there with the
 * same bytes, each block is whose it was, and each move followed by the other gives every byte of the source again.
 *   ABZ_INCONSISTENT  source is no consistent pack, or not of form 1 (abz_to_form1: not of form 2);
 *   ABZ_ARGUMENT      target_len is not 512 (n + 1) (abz_to_form1: not 512 (n - 1)), where n is the source's; or, of
 *                     abz_to_form1, form 1 has no such pack: n - 1 is not 16 to 1024, or c is over 8.
 */
size_t abz_to_form2(const uint8_t *source, size_t source_len, uint8_t *target, size_t target_len);
size_t abz_to_form1(const uint8_t *source, size_t source_len, uint8_t *target, size_t target_len);

/*
 * Rights
 *
 * The protect code of a file says what a caller may do with it:
 *   - the owner, who has the file's UIC, may read, and unless bit 6 (0100) is set also write and delete;
 *   - another of the group, where caller / 256 is the file's UIC / 256, goes by bits 3 to 5, protect / 8 % 8;
 *   - anyone else goes by bits 0 to 2, protect % 8.
 * In these three bits 0 is read, write and delete; 1 is read and write; 2 and 3 are read; 4 to 7 are nothing. The group
 * may so be given less than all others. Bit 7 (0200) is no right: it keeps a file at Finish. KEEP sets it, and no other
 * call goes by it.
 *
 * Opens
 *
 * A pack says how often its files are open, but not by whom, and keeps that in the image until they are closed. A file
 * has one writer at most (word 9) and some readers (word 10), together 62 at most. It is open if it has either.
 *
 * Each call that follows is one request on one file, or two; Finish is one on the caller's files. It changes what is said
 * at it and nothing else: the other words of that entry, the other entries, the header and all bodies stay, but for a
 * block that is taken: it is cleared first. So the blocks of a file that is deleted keep their bytes until then. In form
 * 2 the bits of the blocks that are taken are set in the map, and those of blocks that are given up are cleared.
 */

/* How a file can be open: its writer, and for CLOSE also a reader. */
enum {
    ABZ_UPDATE = 1, /* by OPENU */
    ABZ_OUTPUT = 2, /* by OPENO */
    ABZ_EXTEND = 3, /* by OPENE */
    ABZ_INPUT  = 4  /* by OPENI; not a writer */
};

/*
 * OPENI: opens a file for input. It has one reader more then. Files of both kinds are taken, and also such as are open
 * for update or for extension.
 *   ABZ_INCONSISTENT
 *   ABZ_NAME          the name or the extension is not legal;
 *   ABZ_EXISTENCE     there is no such file, or it is open for output;
 *   ABZ_RIGHT         the caller may not read it;
 *   ABZ_OPENS         its readers, and 1 more if it has a writer, are 62.
 */
size_t abz_openi(uint8_t *image, size_t image_len, size_t caller,
                 size_t name1, size_t name2, size_t extension, size_t uic);

/*
 * OPENU: opens a contiguous file for update. Its writer is ABZ_UPDATE then; its readers stay.
 *   ABZ_INCONSISTENT
 *   ABZ_NAME          the name or the extension is not legal;
 *   ABZ_EXISTENCE     there is no such file, or it is open for output;
 *   ABZ_RIGHT         the caller may not write to it;
 *   ABZ_KIND          it is linked;
 *   ABZ_WRITER        it has a writer;
 *   ABZ_OPENS         it has 62 readers.
 */
size_t abz_openu(uint8_t *image, size_t image_len, size_t caller,
                 size_t name1, size_t name2, size_t extension, size_t uic);

/*
 * OPENE: opens a linked file for extension. Its writer is ABZ_EXTEND then; its readers stay.
 *   ABZ_INCONSISTENT
 *   ABZ_NAME          the name or the extension is not legal;
 *   ABZ_EXISTENCE     there is no such file, or it is open for output;
 *   ABZ_RIGHT         the caller may not write to it;
 *   ABZ_NOT_LINKED    it is contiguous;
 *   ABZ_WRITER        it has a writer;
 *   ABZ_OPENS         it has 62 readers.
 */
size_t abz_opene(uint8_t *image, size_t image_len, size_t caller,
                 size_t name1, size_t name2, size_t extension, size_t uic);

/*
 * CLOSE: takes one open away from a file. With mode ABZ_UPDATE, ABZ_OUTPUT or ABZ_EXTEND it has no writer then, with
 * ABZ_INPUT one reader less. No right is needed, whoever opened it, and caller serves only where uic is 0.
 *   ABZ_INCONSISTENT
 *   ABZ_NAME          the name or the extension is not legal;
 *   ABZ_ARGUMENT      mode is none of the four;
 *   ABZ_EXISTENCE     there is no such file;
 *   ABZ_NOT_OPEN      mode is ABZ_INPUT, and it has no reader; or mode is one of the other three, and is not its writer.
 */
size_t abz_close(uint8_t *image, size_t image_len, size_t caller,
                 size_t name1, size_t name2, size_t extension, size_t uic, size_t mode);

/*
 * DELET: deletes a file of either kind. Its entry is empty then, all 0, and its blocks are free.
 *   ABZ_INCONSISTENT
 *   ABZ_NAME          the name or the extension is not legal;
 *   ABZ_EXISTENCE     there is no such file;
 *   ABZ_RIGHT         the caller may not delete it;
 *   ABZ_OPEN          it is open.
 */
size_t abz_delet(uint8_t *image, size_t image_len, size_t caller,
                 size_t name1, size_t name2, size_t extension, size_t uic);

/*
 * KEEP: sets bit 7 of a file's protect code, if it is not set yet. The file may be open.
 *   ABZ_INCONSISTENT
 *   ABZ_NAME          the name or the extension is not legal;
 *   ABZ_EXISTENCE     there is no such file;
 *   ABZ_RIGHT         the caller is not the owner; what the protect code says does not matter.
 */
size_t abz_keep(uint8_t *image, size_t image_len, size_t caller,
                size_t name1, size_t name2, size_t extension, size_t uic);

/*
 * Finish: deletes the scratch files of the caller, for a user who ends the day. They are all files of the caller's UIC
 * that have bit 7 of their protect code clear, are not open, and that the caller may delete, so that bit 6 is clear too.
 * The image is then as if DELET had been called for each of them, entry after entry; number is how many they are. All
 * other files stay: those of other UICs, whatever they let the caller do, and those of the caller that are kept, are
 * open, or have bit 6 set. So a second Finish by the same caller, with nothing between, has number 0 and changes
 * nothing. Where caller is 0 or not in the pack's list there are no such files, and number is 0.
 *   ABZ_INCONSISTENT
 */
abz_answer abz_finish(uint8_t *image, size_t image_len, size_t caller);

/*
 * RENAM: gives a file a new name, extension and protect code. The owner stays, and so does all else. It cannot change
 * the protect code alone: to keep its name too, a file is renamed twice, the first time with a protect code that still
 * lets the caller write. An owner whose file has bit 6 set may not rename it, and so cannot clear that bit.
 *   ABZ_INCONSISTENT
 *   ABZ_NAME          the name or the extension is not legal, the old or the new;
 *   ABZ_ARGUMENT      protect is above 255;
 *   ABZ_EXISTENCE     there is no such file; or its owner has one of the new name and extension, be it this file;
 *   ABZ_RIGHT         the caller may not write to it;
 *   ABZ_OPEN          it is open.
 */
size_t abz_renam(uint8_t *image, size_t image_len, size_t caller,
                 size_t name1, size_t name2, size_t extension, size_t uic,
                 size_t new_name1, size_t new_name2, size_t new_extension, size_t protect);

/*
 * APPND: puts a linked file, the second, at the end of another, the first, which keeps name, owner and protect code.
 * The first has the blocks of both then, its own before the others, and the second's entry is empty, all 0. Nothing
 * is moved: all that changes in the bodies is the link in the first file's last block, and that only where both files
 * have blocks. Either may have none. uic and second_uic may differ, and 0 means the caller's in both.
 *   ABZ_INCONSISTENT
 *   ABZ_NAME          the name or the extension of either is not legal;
 *   ABZ_ARGUMENT      both are the same file, whether there is one or not;
 *   ABZ_EXISTENCE     there is no such file, for either;
 *   ABZ_RIGHT         the caller may not write to the first, or may not delete the second;
 *   ABZ_KIND          either is contiguous;
 *   ABZ_OPEN          either is open.
 */
size_t abz_appnd(uint8_t *image, size_t image_len, size_t caller,
                 size_t name1, size_t name2, size_t extension, size_t uic,
                 size_t second_name1, size_t second_name2, size_t second_extension, size_t second_uic);

/*
 * Creating
 *
 * The two calls that make a file. Its entry becomes the lowest one that is empty. A caller creates files of his own
 * only, so uic is 0 or his. Each refuses with, in this order:
 *   ABZ_INCONSISTENT
 *   ABZ_NAME          the name or the extension is not legal;
 *   ABZ_ARGUMENT      protect is above 255; for ALLOC also: segments is 0;
 *   ABZ_NO_USER       the owner to be is not in the pack's list;
 *   ABZ_EXISTENCE     there is such a file already;
 *   ABZ_RIGHT         uic is neither 0 nor the caller's;
 *   ABZ_NO_ENTRY      no entry is empty;
 *   ABZ_NO_ROOM       ALLOC only: nowhere are so many blocks free in a row.
 *
 * ALLOC makes a contiguous file that is closed and large enough for so many segments of 64 words: it has as many blocks
 * as have these, segments / 4 rounded up in forms 1 and 2, and segments in form 3; any number may be asked for. Of all
 * places where so many blocks are free in a row, it gets the one that starts highest; number is its first block. Every
 * byte of the blocks is then 0, whatever they held.
 *
 * OPENO makes a linked file that has no block and is open for output: its writer is ABZ_OUTPUT. It needs no free block.
 */
abz_answer abz_alloc(uint8_t *image, size_t image_len, size_t caller,
                     size_t name1, size_t name2, size_t extension, size_t uic, size_t protect, size_t segments);
size_t abz_openo(uint8_t *image, size_t image_len, size_t caller,
                 size_t name1, size_t name2, size_t extension, size_t uic, size_t protect);

/*
 * Bodies
 *
 * The calls that move a file's bytes, one block in each call. A place is that of a block in its file, counted from 0:
 * a file has the places below its length, and one with no block has none. It is not the block's number in the pack.
 * The file must be open as the call says, whoever opened it, and it stays so; the caller's right is judged in each call
 * anew. A buffer is exactly of the size that is named, a block's bytes or a payload's of the image's form.
 */

/*
 * BLOCK input: reads a block of a contiguous file. The buffer gets its bytes; the image stays as it is. The file must
 * have a reader or be open for update.
 *   ABZ_INCONSISTENT
 *   ABZ_NAME          the name or the extension is not legal;
 *   ABZ_ARGUMENT      buffer_len is not a block's bytes;
 *   ABZ_EXISTENCE     there is no such file;
 *   ABZ_RIGHT         the caller may not read it;
 *   ABZ_KIND          it is linked;
 *   ABZ_NOT_OPEN      it has no reader and is not open for update;
 *   ABZ_NO_BLOCK      place is its length or more.
 */
size_t abz_block_in(const uint8_t *image, size_t image_len, size_t caller,
                    size_t name1, size_t name2, size_t extension, size_t uic,
                    size_t place, uint8_t *buffer, size_t buffer_len);

/*
 * BLOCK output: writes a block of a contiguous file. The block gets the bytes of the buffer, and nothing else in the
 * image changes, neither the entry nor another block. The file must be open for update; a reader does not serve.
 *   ABZ_INCONSISTENT
 *   ABZ_NAME          the name or the extension is not legal;
 *   ABZ_ARGUMENT      buffer_len is not a block's bytes;
 *   ABZ_EXISTENCE     there is no such file;
 *   ABZ_RIGHT         the caller may not write to it;
 *   ABZ_KIND          it is linked;
 *   ABZ_NOT_OPEN      it is not open for update;
 *   ABZ_NO_BLOCK      place is its length or more.
 */
size_t abz_block_out(uint8_t *image, size_t image_len, size_t caller,
                     size_t name1, size_t name2, size_t extension, size_t uic,
                     size_t place, const uint8_t *buffer, size_t buffer_len);

/*
 * Linked read: reads a block of a linked file. The buffer gets the payload behind the block's link; the image stays as
 * it is. The file must have a reader; a writer does not serve, though there may be one too, and what linked add puts
 * at the end of the file is there to be read at once.
 *   ABZ_INCONSISTENT
 *   ABZ_NAME          the name or the extension is not legal;
 *   ABZ_ARGUMENT      buffer_len is not a payload's bytes;
 *   ABZ_EXISTENCE     there is no such file;
 *   ABZ_RIGHT         the caller may not read it;
 *   ABZ_KIND          it is contiguous;
 *   ABZ_NOT_OPEN      it has no reader;
 *   ABZ_NO_BLOCK      place is its length or more.
 */
size_t abz_linked_read(const uint8_t *image, size_t image_len, size_t caller,
                       size_t name1, size_t name2, size_t extension, size_t uic,
                       size_t place, uint8_t *buffer, size_t buffer_len);

/*
 * Linked add: puts a block at the end of a linked file. Of the free blocks the highest is taken, and number says which.
 * Its link becomes 0, and the bytes behind become those of the payload. In the entry the length (word 7) grows by 1
 * and the last block (word 8) is the new one; the link of the block that was the last leads to it, or word 6 in a file
 * that had no block. Nothing else changes. The file must be open for output or for extension. One that OPENO made with
 * bit 6 (0100) in its protect code takes no block from its owner, who may not write to it.
 *   ABZ_INCONSISTENT
 *   ABZ_NAME          the name or the extension is not legal;
 *   ABZ_ARGUMENT      payload_len is not a payload's bytes;
 *   ABZ_EXISTENCE     there is no such file;
 *   ABZ_RIGHT         the caller may not write to it;
 *   ABZ_KIND          it is contiguous;
 *   ABZ_NOT_OPEN      it is open neither for output nor for extension;
 *   ABZ_NO_ROOM       no block is free.
 */
abz_answer abz_linked_add(uint8_t *image, size_t image_len, size_t caller,
                          size_t name1, size_t name2, size_t extension, size_t uic,
                          const uint8_t *payload, size_t payload_len);

/*
 * Lines
 *
 * The calls that move the text of a linked file, line by line. Its text is the payloads of its blocks, joined in the
 * order of the chain, so that a line runs on from one block into the next: p * length bytes, where p is the bytes of a
 * payload. A line ends with its terminator, a LINE FEED, VERTICAL TAB or FORM FEED (012, 013, 014). NULs and RUBOUTs (0
 * and 0177) are no characters: a write puts one behind each TAB and FORM FEED, the last block is filled up with NUL, and
 * a read drops them all.
 *
 * The file must be open as the call says, whoever opened it, and it stays so; the caller's right is judged in each call
 * anew. A file that has a writer and a reader can be written and read by turns: what was added is there to be read at
 * once, and what is only gathered is not.
 *
 * The host keeps what goes on from call to call: the position of a read; the gather buffer and the filled count of the
 * writes. A refusal has 0 for position and filled too, and then the host keeps the number that it passed in.
 */

/* The modes of a read or write. They differ where a line is longer than the buffer, or the text more than a line. */
enum {
    ABZ_NORMAL  = 0,
    ABZ_SPECIAL = 1
};

/* What a status is the sum of, as said at the call; 0 if nothing is to be said. They are its bits 0 and 6. */
enum {
    ABZ_INVALID_LINE = 1,
    ABZ_FILE_ENDED   = 64
};

typedef struct {
    size_t code;
    size_t count;    /* characters that were laid down, each that was laid over the last byte too */
    size_t status;
    size_t position; /* for the next read */
} abz_read_answer;

/*
 * Line read: reads a line of a linked file into the buffer; the image stays as it is. position is that of a byte in the
 * file's text: 0 for the first line, and behind it the number that the read before gave. The file must have a reader; a
 * writer does not serve, though there may be one too.
 *
 * Byte after byte is taken from there on. Bit 7 of each is cleared, NUL and RUBOUT are dropped, and what is left is laid
 * into the buffer, from its start, and counted. The read ends behind a terminator, which is laid down as well: then
 * status is 0, and position is that of the byte behind it. But
 *   - where buffer_len characters are laid down and the last of them is no terminator, status has ABZ_INVALID_LINE.
 *     ABZ_NORMAL lays each surplus character over the last byte of the buffer, up to the terminator, and counts it;
 *     count is above buffer_len then. ABZ_SPECIAL ends: position is that of the byte behind the last character that
 *     was laid down, and the next read gives the rest of the line;
 *   - where the text ends before a terminator, status has ABZ_FILE_ENDED, and position is p * length. ABZ_NORMAL may
 *     set both; ABZ_SPECIAL sets one of them, since where the buffer is full it takes no further byte.
 * Bytes of the buffer over which nothing is laid stay.
 *
 * So whoever wants lines of any length reads in ABZ_SPECIAL and takes ABZ_INVALID_LINE to say that the line goes on.
 * Behind the last line of a text that abz_line_end ended, as at the end of every text, a read has count 0 and status
 * ABZ_FILE_ENDED.
 *   ABZ_INCONSISTENT
 *   ABZ_NAME          the name or the extension is not legal;
 *   ABZ_ARGUMENT      mode is neither 0 nor 1, or buffer_len is 0;
 *   ABZ_EXISTENCE     there is no such file;
 *   ABZ_RIGHT         the caller may not read it;
 *   ABZ_KIND          it is contiguous;
 *   ABZ_NOT_OPEN      it has no reader;
 *   ABZ_NO_BLOCK      position is above p * length; just that is the end of the text, and no refusal.
 */
abz_read_answer abz_line_read(const uint8_t *image, size_t image_len, size_t caller,
                              size_t name1, size_t name2, size_t extension, size_t uic,
                              size_t mode, size_t position, uint8_t *buffer, size_t buffer_len);

typedef struct {
    size_t code;
    size_t count;  /* bytes of the text that were taken */
    size_t status;
    size_t filled; /* for the next write, or the end: 0 to p - 1 */
} abz_write_answer;

/*
 * Line write: writes lines to the end of a linked file, which must be open for output or for extension. Since only full
 * blocks are added to the file, the host lends a gather buffer of p bytes to all writes and to the end. Its first
 * filled bytes wait to be added: none for the first write, and behind it as many as the write before gave. The host
 * leaves those as they are; what the others hold does not matter.
 *
 * ABZ_NORMAL takes all of the text. ABZ_SPECIAL takes one line, up to its terminator and with that, or all of the text
 * if it has no terminator. count is how many bytes were taken. status is ABZ_INVALID_LINE if the last of them is no
 * terminator, or if there is none; else it is 0.
 *
 * What was taken is laid into the gather buffer as it is, bit 7 too, with one RUBOUT behind each TAB (011) and one NUL
 * behind each FORM FEED. Each time the buffer is full it is added to the file as by linked add, and laying goes on at
 * its start: byte j of all that is laid, counted from 0, lies at (filled + j) % p. Bytes of the buffer over which
 * nothing is laid stay.
 *
 * A write is refused whole: where not all blocks that become full have room, none is added. Lines of 7-bit characters
 * with no NUL and no RUBOUT, each with one terminator, at its end, are read back the same by a buffer long enough.
 *   ABZ_INCONSISTENT
 *   ABZ_NAME          the name or the extension is not legal;
 *   ABZ_ARGUMENT      mode is neither 0 nor 1, gather_len is not p, or filled is p or more;
 *   ABZ_EXISTENCE     there is no such file;
 *   ABZ_RIGHT         the caller may not write to it;
 *   ABZ_KIND          it is contiguous;
 *   ABZ_NOT_OPEN      it is open neither for output nor for extension;
 *   ABZ_NO_ROOM       fewer blocks are free than become full, which may be none.
 */
abz_write_answer abz_line_write(uint8_t *image, size_t image_len, size_t caller,
                                size_t name1, size_t name2, size_t extension, size_t uic,
                                size_t mode, const uint8_t *text, size_t text_len,
                                uint8_t *gather, size_t gather_len, size_t filled);

/*
 * Line end: adds what waits in the gather buffer, which else would not come into the file; to be called before CLOSE.
 * NUL is laid into the buffer from filled to its end, and it is added to the file as by linked add. Where filled is 0
 * nothing changes, though the causes are looked at. A write that follows begins with filled 0.
 *   ABZ_INCONSISTENT
 *   ABZ_NAME          the name or the extension is not legal;
 *   ABZ_ARGUMENT      gather_len is not p, or filled is p or more;
 *   ABZ_EXISTENCE     there is no such file;
 *   ABZ_RIGHT         the caller may not write to it;
 *   ABZ_KIND          it is contiguous;
 *   ABZ_NOT_OPEN      it is open neither for output nor for extension;
 *   ABZ_NO_ROOM       filled is not 0, and no block is free.
 */
size_t abz_line_end(uint8_t *image, size_t image_len, size_t caller,
                    size_t name1, size_t name2, size_t extension, size_t uic,
                    uint8_t *gather, size_t gather_len, size_t filled);

/*
 * Binary lines
 *
 * The calls that move formatted binary lines of a linked file, as an assembler puts them out. They lie in the payloads of
 * its blocks, joined in the order of the chain, p * length bytes as for lines of text, and run on from one block into the
 * next likewise. A line is
 *
 *   bytes 1 and 0  the first word, 1;
 *   a count word   4 and the data bytes: 4 to 516, low byte first;
 *   the data       up to 512 bytes, each of any value;
 *   a sum byte     which makes the sum of all bytes of the line 0 modulo 256.
 *
 * Between lines there may be NULs, as abz_line_end leaves them, and a read skips those before a line.
 *
 * Opens, rights and what the host keeps from call to call are as told under Lines. A line that is read in parts has two
 * numbers more to keep: how many of its data bytes are still to come, and the sum so far.
 */

/* What the status of a binary read may have besides ABZ_INVALID_LINE and ABZ_FILE_ENDED. They are its bits 1 and 2. */
enum {
    ABZ_WRONG_SUM    = 2,
    ABZ_WRONG_FORMAT = 4
};

enum { ABZ_DATA_MOST = 512 }; /* data bytes of a line */

typedef struct {
    size_t code;
    size_t count;    /* data bytes that were read in this call, each that was laid over the last byte too */
    size_t status;
    size_t position; /* for the next read, */
    size_t to_come;  /* with how many data bytes of this line are to come, 0 to 511, */
    size_t sum;      /* and the sum so far, modulo 256; both are 0 where the next read begins a line */
} abz_binary_answer;

/*
 * Binary read: reads the data of a line, or a part of them, into the buffer; the image stays as it is. position is that
 * of a byte in the file's payloads, joined: 0 for the first line, and behind it the number that the read before gave. So
 * are to_come and sum: 0 and 0 begin a line, and any other to_come goes on in one. The file must have a reader; a writer
 * does not serve, though there may be one too.
 *
 * Where a line begins, NULs are skipped and its header is looked at, word by word. From the header, or where to_come is
 * not 0 from position, as many data bytes are taken as are to come, laid into the buffer from its start, and counted;
 * then the sum byte is taken, and the sum verified: status is 0, and position is that of the byte behind the line. But
 *   - where the data do not go into the buffer, and buffer_len of them are laid down, status has ABZ_INVALID_LINE.
 *     ABZ_NORMAL lays each surplus byte over the last byte of the buffer and counts it, so that count is above buffer_len,
 *     and verifies the sum. ABZ_SPECIAL ends there and verifies nothing: position is that of the next data byte, to_come
 *     is how many are left, and sum is that of all bytes of the line so far, its header's too. Passed in again, they give
 *     the rest, in parts of any sizes; the sum is verified with the last;
 *   - where the sum of the line is not 0 modulo 256, status has ABZ_WRONG_SUM; the data are laid down all the same;
 *   - where the first word is not 1, or the count word is not 4 to 516, status is ABZ_WRONG_FORMAT: nothing is laid down,
 *     and position is the one that was passed in, before the NULs;
 *   - where the payloads end before the sum byte, in the header too, status has ABZ_FILE_ENDED, and position is p * length.
 *     A word of the header that is cut is not judged, but one that is there is, though nothing follows it.
 * status is 0, ABZ_INVALID_LINE, ABZ_WRONG_SUM, ABZ_WRONG_FORMAT or ABZ_FILE_ENDED; and in ABZ_NORMAL it may be
 * ABZ_INVALID_LINE together with ABZ_WRONG_SUM or with ABZ_FILE_ENDED. to_come and sum are 0 but where ABZ_SPECIAL gives
 * ABZ_INVALID_LINE. Bytes of the buffer over which nothing is laid stay.
 *
 * A buffer of ABZ_DATA_MOST bytes holds every line. There a change to any one data byte of a line sets ABZ_WRONG_SUM. Behind the
 * last line a read has count 0 and status ABZ_FILE_ENDED.
 *   ABZ_INCONSISTENT
 *   ABZ_NAME          the name or the extension is not legal;
 *   ABZ_ARGUMENT      mode is neither 0 nor 1; buffer_len is 0; to_come is above 511, or sum above 255; or sum is not 0
 *                     and to_come is;
 *   ABZ_EXISTENCE     there is no such file;
 *   ABZ_RIGHT         the caller may not read it;
 *   ABZ_KIND          it is contiguous;
 *   ABZ_NOT_OPEN      it has no reader;
 *   ABZ_NO_BLOCK      position is above p * length; just that is the end of the payloads, and no refusal.
 */
abz_binary_answer abz_binary_read(const uint8_t *image, size_t image_len, size_t caller,
                                  size_t name1, size_t name2, size_t extension, size_t uic,
                                  size_t mode, size_t position, size_t to_come, size_t sum,
                                  uint8_t *buffer, size_t buffer_len);

/*
 * Binary write: writes a line with these data, which may be none, to the end of a linked file, which must be open for
 * output or for extension. There are no modes. The line is laid into a gather buffer and its full blocks are added to the
 * file, as abz_line_write does it with text, but nothing is put behind any byte; count is data_len, and status 0.
 * abz_line_end adds what waits in the gather buffer, here as there, and lines of both calls may follow one another.
 *
 * A write is refused whole. What is written is read back the same, at once or in parts.
 *   ABZ_INCONSISTENT
 *   ABZ_NAME          the name or the extension is not legal;
 *   ABZ_ARGUMENT      data_len is above ABZ_DATA_MOST, gather_len is not p, or filled is p or more;
 *   ABZ_EXISTENCE     there is no such file;
 *   ABZ_RIGHT         the caller may not write to it;
 *   ABZ_KIND          it is contiguous;
 *   ABZ_NOT_OPEN      it is open neither for output nor for extension;
 *   ABZ_NO_ROOM       fewer blocks are free than become full, which may be none.
 */
abz_write_answer abz_binary_write(uint8_t *image, size_t image_len, size_t caller,
                                  size_t name1, size_t name2, size_t extension, size_t uic,
                                  const uint8_t *data, size_t data_len,
                                  uint8_t *gather, size_t gather_len, size_t filled);

/*
 * Many requests in one call
 *
 * A host that has several requests at hand need not call for each. It lends them as a list of records, and gets the
 * answer of each in a list beside it. The image and the answers are those of the same requests made by the calls above,
 * one after another in the order of the list: each is made of the image that those before it left, and what one of them
 * is refused changes nothing for the others. The image is looked through once, whatever the list has.
 *
 * A record is 16 words, low byte first. Word 0 is the request, one of the numbers below; word 1 is the caller, and words
 * 2 to 5 are name1, name2, extension and uic of the file, where uic 0 means the caller's:
 *
 *   word 0                  6                7                8                9
 *   1   ALLOC               protect          segments
 *   2   DELET
 *   3   RENAM               new name1        new name2        new extension    protect
 *   4   APPND               name1, name2, extension and uic of the second file
 *   5   KEEP
 *   6   OPENO               protect
 *   7   OPENI
 *   8   OPENU
 *   9   OPENE
 *   10  CLOSE               mode
 *
 * Words that are not named are not looked at; so words 10 to 15 never are. Where word 0 is any other number, that of no
 * request or of one that a list may not have, the record's answer is ABZ_ARGUMENT, also where the image is no consistent
 * pack, and it changes nothing.
 *
 * An answer is 16 words too, low byte first: word 0 is the code, word 1 is with ABZ_OK the first block of an ALLOC, and
 * every other word is 0. The answer of record i, counted from 0, stands at byte 32 * i of the answers.
 */

enum {
    ABZ_RECORD_BYTES = 32, /* of a record, and of an answer */
    ABZ_RECORDS_MOST = 64  /* in one call */
};

/* The requests that a list may have. */
enum {
    ABZ_LIST_ALLOC = 1,
    ABZ_LIST_DELET = 2,
    ABZ_LIST_RENAM = 3,
    ABZ_LIST_APPND = 4,
    ABZ_LIST_KEEP  = 5,
    ABZ_LIST_OPENO = 6,
    ABZ_LIST_OPENI = 7,
    ABZ_LIST_OPENU = 8,
    ABZ_LIST_OPENE = 9,
    ABZ_LIST_CLOSE = 10
};

/*
 * Makes the requests of a list of records, and lays the answer of each into answers. The bytes behind the last answer
 * stay. The code is that of the whole call: it says nothing of the answers. With no records it does nothing.
 *   ABZ_ARGUMENT  records_len is that of more than 64 records, or not a multiple of 32; or answers_len is less than
 *                 records_len.
 */
size_t abz_many(uint8_t *image, size_t image_len, const uint8_t *records, size_t records_len,
                uint8_t *answers, size_t answers_len);

/*
 * Command lines
 *
 * A command line says which files are for output and, behind <, which are for input. abz_csi1 makes a condensed line of
 * what an operator typed, if it is of the grammar and its numbers keep their bounds. abz_csi2 takes a condensed line and
 * gives one file specification of it: a host asks for those at place 0, 1, 2 and so on of a side until there is none.
 *
 * The grammar, where a letter is one of A to Z, a digit one of 0 to 9, and an octal digit one of 0 to 7:
 *
 *   command        a side; or a side, <, and another side. The first is the output side, the second the input side.
 *   side           one or more specifications. Each comma that is not in brackets begins another.
 *   specification  any of these parts, in this order, and also none of them:
 *                    - a device and :
 *                    - a name; or a name, a period and an extension
 *                    - [, the group, a comma, the user, and ]
 *                    - any number of switches
 *   device         2 or 3 letters, then any number of octal digits, which are the unit; none of them make unit 0
 *   name           1 to 6 letters or digits
 *   extension      1 to 3 letters or digits
 *   group, user    one or more octal digits each
 *   switch         /, a letter, and up to 5 more letters or digits; then any number of values
 *   value          : and 1 to 6 letters or digits
 *
 * So the empty line has one specification, with no part, and no input side; < has one on each side; DT1 is a name, and
 * DT1: is a device. Any other byte is a fault wherever it stands: lower case, CR and LF, bytes with bit 7 set. No line
 * can be read in two ways.
 *
 * The place of a fault is that of the first character, counted from 0, with which no line of the grammar could go on,
 * however long lines may be; or the length of the line if it only stops too soon. So it is 3 in A<B<C, 6 in ABCDEFG,
 * 3 in /S: and 0 in .DAT.
 *
 * The bounds: a unit is at most 7, a group and a user at most 377, in octal as they stand in the line. Digits may be any
 * number, and leading zeros are allowed: DT007: is unit 7, and DT10: is over the bound. All numbers of a line are looked
 * at, on both sides, but only behind its grammar: DT8: and DT10:<< are not of the grammar, and have a place. A number
 * over its bound has none.
 */

/*
 * CSI1: condenses a line and judges it. The condensed line has all bytes of the line, in their order, but for blanks,
 * TABs, NULs and RUBOUTs (040, 011, 0 and 0177). It is written to the start of condensed, and the bytes behind it stay.
 * number is its length, which may be 0.
 *   ABZ_LONG_LINE     line_len is above 512, or the condensed line has more than 128 bytes;
 *   ABZ_SHORT_BUFFER  condensed_len is less than the condensed line has;
 *   ABZ_GRAMMAR       the condensed line is not of the grammar; number is the place of the fault in the condensed line,
 *                     which is not written;
 *   ABZ_NUMBER        it is of the grammar, and one of its numbers is over its bound.
 * A short buffer hides a fault: a host that wants the place lends 128 bytes, which are enough for every line.
 */
abz_answer abz_csi1(const uint8_t *line, size_t line_len, uint8_t *condensed, size_t condensed_len);

/* The sides of a command line. */
enum {
    ABZ_OUTPUT_SIDE = 0,
    ABZ_INPUT_SIDE  = 1
};

/* The parts that a specification can have besides switches. */
enum {
    ABZ_HAS_DEVICE    = 1,
    ABZ_HAS_NAME      = 2,
    ABZ_HAS_EXTENSION = 4,
    ABZ_HAS_UIC       = 8 /* group and user */
};

typedef struct {
    size_t code;
    size_t place;                   /* with ABZ_GRAMMAR that of the fault, else 0 */
    size_t present;                 /* which parts it has: the sum of their numbers above */
    size_t device, unit;            /* the device's letters as a Radix-50 word, with a blank behind two of them */
    size_t name1, name2, extension; /* Radix-50 words, as the calls on files take them */
    size_t group, user;
    size_t switches;                /* how many it has */
} abz_specification;

/*
 * CSI2: gives the specification at place k, counted from 0, of a side of a condensed line. The members of a part that
 * it does not have are 0. Unit, group and user are octal in the line and keep their bounds; so 256 * group + user is a
 * uic for the calls on files, where 0 means the caller's: ABZ_HAS_UIC tells whether one was written. line_len is the
 * number that CSI1 gave, not the length of the buffer it was lent.
 *
 * The switches are written to the start of the slice of that name, in the order in which they stand in the line, and
 * the bytes behind stay. A switch is words of two bytes, low byte first:
 *
 *   0         how many values it has
 *   1, 2      its name, without the /, as two Radix-50 words with blanks behind
 *   3, 4      its first value, without the :, likewise
 *   5, 6 ...  its other values
 *
 * So a switch takes 6 bytes and each of its values 4 more, and 384 bytes are enough for every line.
 *   ABZ_LONG_LINE         line_len is above 128;
 *   ABZ_GRAMMAR           the line is not of the grammar, whatever side and k are; place is that of the fault. Nothing
 *                         is dropped here, so that a blank, TAB, NUL or RUBOUT is a fault;
 *   ABZ_NUMBER            it is of the grammar, and one of its numbers is over its bound, whatever side and k are;
 *   ABZ_NO_SPECIFICATION  side is neither 0 nor 1; or it is 1, and there is no < in the line; or the side has no
 *                         specification at place k;
 *   ABZ_SHORT_BUFFER      switches_len is less than the switches take.
 */
abz_specification abz_csi2(const uint8_t *line, size_t line_len, size_t side, size_t k,
                           uint8_t *switches, size_t switches_len);

/*
 * Writes the line of specifications that abz_csi2 gave, as a panel shows it: without blanks, a unit only if it is not 0,
 * group and user in octal without leading zeros. The line goes to the start of line, and the bytes behind it stay.
 * number is its length.
 *
 * outputs and inputs are how many specifications each side has; with inputs 0 there is no <. records has them all, one
 * behind the other, those of the output side first. The record of a specification is nine words, low byte first,
 *
 *   word 0    present          word 3, 4  name1, name2        word 6, 7  group, user
 *   1, 2      device, unit     5          extension           8          switches
 *
 * and behind them the bytes that abz_csi2 wrote for its switches. So it takes 18 bytes and those of its switches.
 *
 * Whatever was read is written, and no longer than it was; and what is written is read as the same specifications, and
 * written again is the same line. So of a line that abz_csi1 condensed all records are written to a line of 128 bytes.
 *   ABZ_ARGUMENT      no line of whatever length has these specifications: outputs is 0; records_len is not what the
 *                     records take; or in a record a bit of present is none of those above, a number of an absent part
 *                     is not 0, an extension stands without a name, a device is not of 2 or 3 letters, a unit is above
 *                     7, a group or user above 0377, a name, extension, switch or value is not as the grammar has it;
 *   ABZ_LONG_LINE     the line has more than 128 characters;
 *   ABZ_SHORT_BUFFER  line_len is less than the line has.
 */
abz_answer abz_csi_write(size_t outputs, size_t inputs, const uint8_t *records, size_t records_len,
                         uint8_t *line, size_t line_len);

#ifdef __cplusplus
}
#endif

#endif
