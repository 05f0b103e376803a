/*
 * The report of document 02, 6 and 7, with nothing taken from the library: the rules of 01 in their order, then the map,
 * and the first that fails. Plain before it is quick: whether a chain has been at a block is found by walking it again.
 */
#ifndef REPORT_H
#define REPORT_H

#include "abezolit.h"

#include "image.h"

static inline abz_report_answer told(size_t rule, size_t entry, size_t word, size_t block)
{
    const abz_report_answer answer = { rule, entry, word, block };

    return answer;
}

/* The first word of block 0 that breaks its rule, or as many as it has. */
static inline size_t first_header_word(const uint8_t *image)
{
    const size_t n = get_word(image, BLOCKS), c = get_word(image, CONTENTS), u = get_word(image, UICS);
    const pack_form *form = form_numbered(get_word(image, FORM));

    if (!form)
        return FORM;
    if (n < form->blocks_least || n > form->blocks_most)
        return BLOCKS;
    if (c < form->contents_least || c > form->contents_most || first_body(form, c) >= n)
        return CONTENTS;
    if (u > form->uics_most)
        return UICS;
    for (size_t word = UIC_LIST; word < form->block / 2; word++) {
        if ((word < UIC_LIST + u) != (get_word(image, word) != 0))
            return word;
        for (size_t before = UIC_LIST; before < word && word < UIC_LIST + u; before++)
            if (get_word(image, before) == get_word(image, word))
                return word;
    }
    return form->block / 2;
}

static inline bool is_body(const uint8_t *image, size_t block)
{
    return block >= bodies_from(image) && block < get_word(image, BLOCKS);
}

/* Word 6 to 8 of a contiguous file. */
static inline abz_report_answer report_extent(const uint8_t *image, size_t entry)
{
    const size_t first = get_field(image, entry, FIRST), length = get_field(image, entry, LENGTH);

    if (!is_body(image, first))
        return told(5, entry, FIRST, 0);
    if (length == 0 || first + length > get_word(image, BLOCKS))
        return told(5, entry, LENGTH, 0);
    if (get_field(image, entry, LAST) != first + length - 1)
        return told(5, entry, LAST, 0);
    return told(0, 0, 0, 0);
}

static inline abz_report_answer report_chain(const uint8_t *image, size_t entry)
{
    const size_t first = get_field(image, entry, FIRST), length = get_field(image, entry, LENGTH);
    size_t block = first;

    if (length == 0) {
        if (first != 0)
            return told(5, entry, FIRST, 0);
        return get_field(image, entry, LAST) != 0 ? told(5, entry, LAST, 0) : told(0, 0, 0, 0);
    }
    if (!is_body(image, first))
        return told(5, entry, FIRST, 0);
    for (size_t place = 0; place + 1 < length; place++) {
        const size_t next = get_link(image, block);
        if (!is_body(image, next))
            return told(6, entry, 0, block);
        for (size_t before = 0, at = first; before <= place; before++, at = get_link(image, at))
            if (at == next)
                return told(7, entry, 0, next);
        block = next;
    }
    if (get_field(image, entry, LAST) != block)
        return told(5, entry, LAST, 0);
    return get_link(image, block) != 0 ? told(8, entry, 0, block) : told(0, 0, 0, 0);
}

static inline abz_report_answer report_entry(const uint8_t *image, size_t entry)
{
    const file_key key = entry_key(image, entry);
    const size_t begins[] = { key.name1, 0 }, name[] = { key.name1, key.name2 };
    const size_t kind = get_field(image, entry, KIND), writer = get_field(image, entry, WRITER);

    if (!spelled_legally(begins, 2, 1))
        return told(3, entry, NAME1, 0);
    if (!spelled_legally(name, 2, 1))
        return told(3, entry, NAME2, 0);
    if (!spelled_legally(&key.extension, 1, 0))
        return told(3, entry, EXTENSION, 0);
    if (!listed(image, key.uic))
        return told(3, entry, UIC, 0);
    if (find_below(image, key, entry) != entry)
        return told(4, entry, UIC, 0);
    if (get_field(image, entry, PROTECT) > 255)
        return told(3, entry, PROTECT, 0);
    if (kind != CONTIGUOUS && kind != LINKED)
        return told(3, entry, KIND, 0);
    if (kind == CONTIGUOUS ? writer > 1 : writer == 1 || writer > 3)
        return told(3, entry, WRITER, 0);
    if (get_field(image, entry, READERS) + (writer != 0) > 62)
        return told(3, entry, READERS, 0);
    for (size_t word = ZEROS; word < ENTRY_WORDS; word++)
        if (get_field(image, entry, word) != 0)
            return told(3, entry, word, 0);
    return kind == CONTIGUOUS ? report_extent(image, entry) : report_chain(image, entry);
}

/* Where every entry is right: the lowest block that two files reach, and the second of them. */
static inline abz_report_answer report_shared(const uint8_t *image)
{
    for (size_t block = 0; block < get_word(image, BLOCKS); block++) {
        size_t holders = 0;
        for (size_t entry = 0; entry < entry_count(image); entry++)
            for (size_t place = 0; place < get_field(image, entry, LENGTH); place++)
                if (block_at(image, entry, place) == block && ++holders == 2)
                    return told(9, entry, 0, block);
    }
    return told(0, 0, 0, 0);
}

/* Where no block is shared: the lowest whose bit of the map is wrong, also from n up. */
static inline abz_report_answer report_map(const uint8_t *image)
{
    static bool held[MAP_BITS];

    memset(held, 0, sizeof held);
    for (size_t entry = 0; entry < entry_count(image); entry++)
        for (size_t place = 0; place < get_field(image, entry, LENGTH); place++)
            held[block_at(image, entry, place)] = true;
    for (size_t block = 0; has_map(form_of(image)) && block < MAP_BITS; block++)
        if (get_bit(image, block) != (block < bodies_from(image) || held[block]))
            return told(10, 0, 0, block);
    return told(0, 0, 0, 0);
}

static inline abz_report_answer judge_report(const uint8_t *image, size_t length)
{
    if (length < 4 || length != form_of(image)->block * get_word(image, BLOCKS))
        return told(1, 0, 0, 0);
    if (first_header_word(image) < form_of(image)->block / 2)
        return told(2, 0, first_header_word(image), 0);
    for (size_t entry = 0; entry < entry_count(image); entry++) {
        const abz_report_answer answer = used(image, entry) ? report_entry(image, entry) : told(0, 0, 0, 0);
        if (answer.rule != 0)
            return answer;
    }

    const abz_report_answer shared = report_shared(image);
    return shared.rule != 0 ? shared : report_map(image);
}

#endif
