/*
 * Dwarnizza reads and writes CASC/TACT files. This is the C interface of its
 * static library, libdwarnizza.a, for C99 and C++11.
 *
 * Arguments. First come the inputs: bytes as a pointer and a length, and
 * numbers. Then come the outputs, and last the answer, eight 64-bit words. A
 * length counts bytes and may be 0; then its pointer may be NULL. No other
 * pointer is NULL, and no output overlaps another argument. No number has fewer
 * than 32 bits, so that one outside its bounds is refused and not cut.
 *
 * Result. DWARNIZZA_ANSWERED, DWARNIZZA_ABSENT or DWARNIZZA_REFUSED. Each call
 * writes all eight words of the answer; a word that the case at hand does not
 * name is 0. A refusal names three:
 *
 *     answer[0]  the number of the refusal, which says what was wrong
 *     answer[1]  its place: the page, entry, footer byte, .. (0 where none is
 *                named)
 *     answer[2]  the link of the chain that refused: 1 root, 2 encoding,
 *                3 index (0 outside a chain)
 *
 * After a refusal the outputs other than the answer keep their bytes.
 *
 * Ownership. The caller owns every buffer. The library allocates nothing, frees
 * nothing, and keeps no pointer once a call has returned.
 *
 * Threads. There is no state between calls, so that calls may run side by side.
 * They may share inputs. While a call runs nothing else writes its inputs,
 * those in a mapped file too, and nothing else reads or writes its outputs.
 *
 * Needs. The library calls memcpy and memset, and nothing else that it does not
 * bring along.
 *
 * Platforms. The library is built for x86-64 Linux: an ELF object, little-endian,
 * position-independent, with no instruction that an x86-64 processor may lack.
 * It is tested there and nowhere else.
 */
#ifndef DWARNIZZA_H
#define DWARNIZZA_H

#include <stddef.h>
#include <stdint.h>

#ifdef __cplusplus
extern "C" {
#endif

/* The version of this header and of the library that it came with. */
#define DWARNIZZA_VERSION "0.1.0"
#define DWARNIZZA_VERSION_MAJOR 0
#define DWARNIZZA_VERSION_MINOR 1
#define DWARNIZZA_VERSION_PATCH 0

/* The results. */
enum {
    DWARNIZZA_ANSWERED = 0, /* passed, found or written */
    DWARNIZZA_ABSENT = 1,
    DWARNIZZA_REFUSED = 2
};

/*
 * The refusals: name, number, words, and what the place counts ("" where the
 * number names no place).
 */
#define DWARNIZZA_REFUSALS(X) \
    X(DWARNIZZA_INDEX_SHORT, 1, "index under 28 bytes", "") \
    X(DWARNIZZA_FOOTER_HASH, 3, "footer hash wrong", "") \
    X(DWARNIZZA_ENTRY_COUNT, 4, "more than 8,388,608 entries", "") \
    X(DWARNIZZA_INDEX_LENGTH, 5, "file length wrong", "") \
    X(DWARNIZZA_INDEX_PAGE_HASH, 6, "page hash wrong", "page") \
    X(DWARNIZZA_INDEX_PADDING, 7, "padding not zero", "page") \
    X(DWARNIZZA_INDEX_ORDER, 8, "key not above the one before", "entry") \
    X(DWARNIZZA_LAST_KEY, 9, "stored last key wrong", "page") \
    X(DWARNIZZA_INDEX_KEY_LENGTH, 10, "key not of the index's key length", "") \
    X(DWARNIZZA_SETTINGS, 11, "settings wrong", "") \
    X(DWARNIZZA_LIST_LENGTH, 12, "list not whole entries", "") \
    X(DWARNIZZA_OUTPUT_SHORT, 13, "output shorter than what is to be written", "") \
    X(DWARNIZZA_NOT_BLTE, 20, "envelope under 8 bytes, or not BLTE", "") \
    X(DWARNIZZA_ENVELOPE_HEADER, 21, "envelope's header size, flags or chunk count wrong, or header past the end", "") \
    X(DWARNIZZA_CHUNK_SIZES, 22, "an empty chunk, or sizes not adding up to the rest", "") \
    X(DWARNIZZA_CHUNK_HASH, 23, "chunk hash wrong", "chunk") \
    X(DWARNIZZA_CHUNK_MODE, 24, "chunk mode not N", "chunk") \
    X(DWARNIZZA_DECODED_SIZE, 25, "decoded size not encoded size less 1", "chunk") \
    X(DWARNIZZA_CONTENT_OUTPUT_SHORT, 26, "output shorter than the content", "") \
    X(DWARNIZZA_ENVELOPE_KEY, 27, "envelope key not the one given", "") \
    X(DWARNIZZA_NOT_ENCODING, 30, "encoding file under 22 bytes, or not EN", "") \
    X(DWARNIZZA_ENCODING_HEADER, 31, "a header field of the encoding file wrong", "") \
    X(DWARNIZZA_ENCODING_CUT, 32, "parts of the encoding file run past its end", "") \
    X(DWARNIZZA_SPEC_TABLE_OPEN, 33, "last spec not closed", "") \
    X(DWARNIZZA_ENCODING_PAGE_HASH, 34, "page hash wrong", "page") \
    X(DWARNIZZA_ENTRY_OVER_PAGE, 35, "entry over the page's end", "page") \
    X(DWARNIZZA_ENCODING_ORDER, 36, "key not above the one before", "page") \
    X(DWARNIZZA_FIRST_KEY, 37, "first key wrong", "page") \
    X(DWARNIZZA_SPEC_NUMBER, 38, "spec number past the table", "") \
    X(DWARNIZZA_ENCODING_KEY_LENGTH, 39, "sought key not of the encoding file's key length", "") \
    X(DWARNIZZA_BLOCK_CUT, 40, "block cut", "block at byte") \
    X(DWARNIZZA_ID_RANGE, 41, "id outside its range", "block at byte") \
    X(DWARNIZZA_ROOT_HEADER_SIZE, 42, "root header size from 16 to 19", "") \
    X(DWARNIZZA_ROOT_HEADER_CUT, 43, "root header cut", "") \
    X(DWARNIZZA_ROOT_VERSION, 44, "root version 4", "") \
    X(DWARNIZZA_HASH_LIMIT, 50, "more than 2^48 bytes hashed", "") \
    X(DWARNIZZA_KEY_TEXT_LENGTH, 60, "key text not two characters for each byte of the key", "") \
    X(DWARNIZZA_HEX_DIGIT, 61, "not a hex digit", "digit") \
    X(DWARNIZZA_LISTING_INPUT, 70, "listing input above 65,536 bytes", "") \
    X(DWARNIZZA_FOOTER_VERSION, 102, "footer version wrong", "footer byte") \
    X(DWARNIZZA_FOOTER_RESERVED, 103, "reserved footer byte not zero", "footer byte") \
    X(DWARNIZZA_FOOTER_PAGE_SIZE, 104, "footer page size wrong", "footer byte") \
    X(DWARNIZZA_FOOTER_OFFSET_WIDTH, 105, "footer offset width wrong", "footer byte") \
    X(DWARNIZZA_FOOTER_SIZE_WIDTH, 106, "footer size width wrong", "footer byte") \
    X(DWARNIZZA_FOOTER_KEY_LENGTH, 107, "footer key length wrong", "footer byte") \
    X(DWARNIZZA_FOOTER_HASH_LENGTH, 108, "footer hash length wrong", "footer byte") \
    X(DWARNIZZA_PATH_LENGTH, 110, "path above 1,024 bytes", "") \
    X(DWARNIZZA_LIST_FALLS, 161, "list falls", "id")

enum {
#define DWARNIZZA_NUMBER(name, number, words, place) name = number,
    DWARNIZZA_REFUSALS(DWARNIZZA_NUMBER)
#undef DWARNIZZA_NUMBER
};

/* What a refusal of this number says. */
static inline const char *dwarnizza_words(uint64_t number) {
    switch (number) {
#define DWARNIZZA_WORDS(name, number, words, place) case number: return words;
        DWARNIZZA_REFUSALS(DWARNIZZA_WORDS)
#undef DWARNIZZA_WORDS
    default: return "unknown refusal";
    }
}

/* What the place of such a refusal counts; "" where the number names none. */
static inline const char *dwarnizza_place_words(uint64_t number) {
    switch (number) {
#define DWARNIZZA_PLACE(name, number, words, place) case number: return place;
        DWARNIZZA_REFUSALS(DWARNIZZA_PLACE)
#undef DWARNIZZA_PLACE
    default: return "place";
    }
}

/*
 * MD5 (RFC 1321)
 *
 * Input is at most 2^48 bytes in all. Data at hand in one piece takes one
 * call:
 *
 *     dwarnizza_md5(data, data_len, digest, answer);
 *
 * Data that comes in parts goes through a state, which the caller keeps. Any
 * cutting into parts, empty ones too, gives the digest of the whole:
 *
 *     struct dwarnizza_md5_state s;
 *     dwarnizza_md5_start(s.words, s.pending, &s.count, answer);
 *     while (there is a part)
 *         if (dwarnizza_md5_update(part, part_len, s.words, s.pending,
 *                                  &s.count, answer) != DWARNIZZA_ANSWERED)
 *             the part passes the limit: answer[0] is 50;
 *     dwarnizza_md5_finish(s.words, s.pending, s.count, digest, answer);
 *
 * Every value of a state may be given to update and finish. To copy a state is
 * to copy its three fields.
 */
struct dwarnizza_md5_state {
    uint32_t words[4];   /* A, B, C, D of RFC 1321 after the whole blocks so far */
    uint8_t pending[64]; /* the first count % 64 are the bytes after those blocks */
    uint64_t count;      /* all bytes so far */
};

/*
 * The digest of data.
 * Answered: digest is written; no word of the answer is named.
 * Refused: 50 where data_len is above 2^48.
 */
uint32_t dwarnizza_md5(const uint8_t *data, size_t data_len, uint8_t digest[16],
                       uint64_t answer[8]);

/*
 * The state before the first part.
 * Answered always: the state is written; no word of the answer is named.
 */
uint32_t dwarnizza_md5_start(uint32_t words[4], uint8_t pending[64],
                             uint64_t *count, uint64_t answer[8]);

/*
 * The state after one more part.
 * Answered: the state is written; no word of the answer is named.
 * Refused: 50 where *count and part_len together are above 2^48.
 */
uint32_t dwarnizza_md5_update(const uint8_t *part, size_t part_len,
                              uint32_t words[4], uint8_t pending[64],
                              uint64_t *count, uint64_t answer[8]);

/*
 * The digest of all parts so far. The state is only read, so that further
 * parts may follow.
 * Answered always: digest is written; no word of the answer is named.
 */
uint32_t dwarnizza_md5_finish(const uint32_t words[4], const uint8_t pending[64],
                              uint64_t count, uint8_t digest[16],
                              uint64_t answer[8]);

/*
 * Archive index
 *
 * An archive index gives for each encoding key its encoded size and location.
 * It is n entries on P pages of 4,096 bytes, then the last key of each page,
 * the hash of each page, and a footer of 28 bytes. An entry is a key of K
 * bytes, the encoded size in 4 and the location in W. Keys rise through the
 * whole file. Pages, entries and slots count from 0, entries through the whole
 * file and slots within their page.
 *
 * The full check refuses with the first that holds, in this order:
 *
 *     the opening checks:
 *     1            the file is under 28 bytes
 *     102 to 108   a field of the footer is wrong, the first one: version,
 *                  reserved, page size, offset width, size width, key length,
 *                  hash length; the place is the byte's offset in the footer,
 *                  8 to 15
 *     3, 4         the footer's hash is wrong, n is above 8,388,608
 *     5            its length is not the one that follows from the footer
 *     page by page:
 *     6, 7         the page's hash is wrong, its padding is not zero
 *     8            a key on it is not above the one before
 *     9            its stored last key is wrong
 *
 * The list of an index is its entries' bytes, in order, with nothing between:
 * n * (K + 4 + W) bytes, fewer than the index has.
 */

/*
 * The full check of an index.
 * Answered: it passes; answer[0] is the version, [1] W, [2] K, [3] n, [4] P.
 * Refused: as the full check refuses.
 */
uint32_t dwarnizza_index_check(const uint8_t *index, size_t index_len,
                               uint64_t answer[8]);

/*
 * What the footer of an index says, by the opening checks alone: no page is
 * looked at, so this does not check the index.
 * Answered: answer[0] is the version, [1] W, [2] K, [3] n, [4] P.
 * Refused: as the opening checks refuse.
 */
uint32_t dwarnizza_index_settings(const uint8_t *index, size_t index_len,
                                  uint64_t answer[8]);

/*
 * The entry in a slot of a page, by the opening checks alone. Page by page, and
 * slot by slot, the entries are those of the list.
 * Answered: answer[0] is where in the index its key stands, [1] K, [2] the
 * encoded size, [3] the archive number, which is 0 where W is not 6, [4] the
 * offset, [5] the page, [6] the slot.
 * Absent: page is P or more, or slot is not below the number of the page's
 * entries, which dwarnizza_index_page tells; no word of the answer is named.
 * Refused: as the opening checks refuse.
 */
uint32_t dwarnizza_index_entry(const uint8_t *index, size_t index_len,
                               uint64_t page, uint64_t slot,
                               uint64_t answer[8]);

/*
 * What the footer of an index says, by the opening checks but 5: the length is
 * not judged, so that the last 28 bytes of a file are enough. This does not
 * check the index.
 * Answered: answer[0] is the version, [1] W, [2] K, [3] n, [4] P, [5] the
 * length of the whole file that has this footer, [6] the length of the footer,
 * 28.
 * Refused: as the opening checks but 5 refuse.
 */
uint32_t dwarnizza_index_footer(const uint8_t *index, size_t index_len,
                                uint64_t answer[8]);

/*
 * Whether the last 28 bytes are the footer of an index of loose files or of
 * patches, which is no archive index: the offset width is 0, the other fields
 * from version to hash length are such as an archive index has, and the footer
 * hash is right. n and the rest of the file are not judged. Calls that make the
 * opening checks refuse such a file with 105 at 12.
 * Answered: they are; no word of the answer is named.
 * Absent: they are not, or there are fewer than 28; no word of the answer is
 * named.
 */
uint32_t dwarnizza_index_loose(const uint8_t *index, size_t index_len,
                               uint64_t answer[8]);

/*
 * Where a page of an index and its parts stand, by the opening checks alone.
 * Places are byte offsets in the index, lengths are in bytes.
 * Answered: answer[0] is the place of the page, [1] its length, 4,096, [2] the
 * place of its stored last key, [3] the length of that, K, [4] the place of its
 * stored hash, [5] the length of that, 8, [6] the number of its first entry,
 * [7] how many entries it has.
 * Absent: page is P or more; no word of the answer is named.
 * Refused: as the opening checks refuse.
 */
uint32_t dwarnizza_index_page(const uint8_t *index, size_t index_len,
                              uint64_t page, uint64_t answer[8]);

/*
 * The list of an index.
 * Answered: the list is written at the start of output, and the bytes past it
 * stay; answer[0] is how many were written.
 * Refused: as the full check refuses; then 13 where output_len is below the
 * length of the list.
 */
uint32_t dwarnizza_index_list(const uint8_t *index, size_t index_len,
                              uint8_t *output, size_t output_len,
                              uint64_t answer[8]);

/*
 * The index of a list, with these settings: version 0 or 1, offset_width (W) 4
 * to 6, key_length (K) 1 to 16. The list is of entries as they stand in an
 * index. The file has P * (4096 + K + 8) + 28 bytes, where a full page holds E
 * entries, 4096 / (K + 4 + W) rounded down, and P is n / E rounded up.
 *
 * An index that is written passes the full check, and its list and settings
 * are those given. The list of a checked index, written with the settings of
 * that index, gives the same file but for the eight bytes of the contents
 * hash, which the full check does not judge.
 *
 * Answered: the file is written at the start of output, and the bytes past it
 * stay; answer[0] is how many were written.
 * Refused, by the first that holds: 11 where a setting is another; 12 where
 * list_len is no multiple of K + 4 + W; 4; 8, with the number of the first
 * entry whose key is not above the one before; 13 where output_len is below
 * the length of the file.
 */
uint32_t dwarnizza_index_write(uint32_t version, uint32_t offset_width,
                               uint32_t key_length, const uint8_t *list,
                               size_t list_len, uint8_t *output,
                               size_t output_len, uint64_t answer[8]);

/*
 * The length of the file that dwarnizza_index_write writes of this list with
 * these settings.
 * Answered: answer[0] is the length.
 * Refused: 11, 12, 4 and 8 as dwarnizza_index_write refuses.
 */
uint32_t dwarnizza_index_written_length(uint32_t version, uint32_t offset_width,
                                        uint32_t key_length,
                                        const uint8_t *list, size_t list_len,
                                        uint64_t answer[8]);

/*
 * One entry of a list, of K + 4 + W bytes: key, encoded size and location, the
 * numbers big-endian. With W = 6 the location is the archive number in two
 * bytes and the offset in four; with 4 and 5 it is the offset alone.
 * Answered: the entry is written at the start of output, and the bytes past it
 * stay; answer[0] is how many were written.
 * Refused, by the first that holds: 11 where a setting is another than
 * dwarnizza_index_write takes, or W bytes do not hold archive and offset (with
 * W = 6 above 65,535 or 4,294,967,295; else an archive that is not 0, or an
 * offset of more than W bytes); 10 where key_len is not K; 13 where output_len
 * is below K + 4 + W.
 */
uint32_t dwarnizza_list_put(uint32_t version, uint32_t offset_width,
                            uint32_t key_length, const uint8_t *key,
                            size_t key_len, uint32_t size, uint32_t archive,
                            uint64_t offset, uint8_t *output, size_t output_len,
                            uint64_t answer[8]);

/*
 * The listing of an index, as text: a line for the whole, then a line for each
 * entry. The index of one entry, with K = 1, W = 4, key 05, size 7 and
 * location 9, has
 *
 *     index key=1 offset=4 entries=1 pages=1
 *     05 7 - 9
 *
 * With W = 6 the archive number stands in place of the dash, and the offset in
 * it is last. Keys are in lower-case hex, numbers in decimal, and each line
 * ends in a line feed. No zero byte ends the text.
 *
 * Answered: answer[0] is the length of the text. Where output_len is that or
 * more, the text is written at the start of output, and the bytes past it stay;
 * else output keeps all its bytes, and a longer one may be tried.
 * Refused: 70 above 65,536 bytes of input; then as the full check refuses.
 */
uint32_t dwarnizza_index_listing(const uint8_t *input, size_t input_len,
                                 uint8_t *output, size_t output_len,
                                 uint64_t answer[8]);

/*
 * The lookup of a key, of K bytes.
 *
 * It halves the stored last keys to the first page whose last key is not below
 * the sought one, then that page's entries to the first whose key is not below
 * it, and one more comparison tells whether that key is the sought one. Each
 * comparison of a stored key counts one.
 *
 * Of the full check it makes the opening checks alone. On an index that passes
 * the full check it finds exactly the keys that stand in it, with no more
 * comparisons than dwarnizza_index_bound says. On one that passes only the
 * opening checks it answers by the same rule, and may miss a key: check an
 * index once before it is searched.
 *
 * Answered: the key is found; answer[0] is the page, [1] the slot, [2] the
 * encoded size, [3] the location as one number, [4] how many keys were
 * compared. With W = 6 the location is an archive number, answer[3] >> 32, and
 * an offset, answer[3] & 0xffffffff.
 * Absent: answer[4] is how many keys were compared.
 * Refused: as the opening checks refuse; then 10 where key_len is not K.
 */
uint32_t dwarnizza_index_lookup(const uint8_t *index, size_t index_len,
                                const uint8_t *key, size_t key_len,
                                uint64_t answer[8]);

/*
 * The most comparisons that a lookup makes.
 * Answered: answer[0] is the binary digits of P, and those of the entry count
 * of a full page, 4096 / (K + 4 + W) rounded down, and 1.
 * Refused: as the opening checks refuse.
 */
uint32_t dwarnizza_index_bound(const uint8_t *index, size_t index_len,
                               uint64_t answer[8]);

/*
 * Envelope
 *
 * A BLTE envelope is a header and c chunks. The header is "BLTE", its own size
 * in 4 bytes, the flags 0x0F, c in 3 bytes, and then for each chunk its encoded
 * size in 4 bytes, its decoded size in 4 and the MD5 of the encoded chunk: 12 +
 * 24 * c bytes, numbers big-endian. Where the header size is 0, these 8 bytes
 * are the header, and the rest is one chunk without sizes and hash. The first
 * byte of a chunk is its mode; N means that the rest of it is content. Chunks
 * count from 0. The key of an envelope is the MD5 of its header, or of the
 * whole file where the header size is 0.
 *
 * Opening refuses with the first that holds, in this order:
 *
 *     20, 21, 22   the file is no envelope, or its header or sizes are wrong
 *     27           the key given is not of 16 bytes
 *     50           the header size is 0 and the file is above 2^48 bytes
 *     27           the key given is not that of the envelope
 *     chunk by chunk:
 *     23, 24, 25   the chunk's hash, its mode, its decoded size is wrong
 *
 * 23 and 25 arise only where the header size is not 0.
 */

/*
 * The content of an envelope: that of its chunks, in order, with nothing
 * between. It has fewer bytes than the file.
 * Answered: the content is written at the start of output, and the bytes past
 * it stay; answer[0] is how many were written.
 * Refused: as opening refuses; then 26 where output_len is below the length of
 * the content.
 */
uint32_t dwarnizza_envelope_open(const uint8_t *file, size_t file_len,
                                 const uint8_t *key, size_t key_len,
                                 uint8_t *output, size_t output_len,
                                 uint64_t answer[8]);

/*
 * The length of an envelope's content.
 * Answered: answer[0] is how many bytes the content has.
 * Refused: as opening refuses.
 */
uint32_t dwarnizza_envelope_length(const uint8_t *file, size_t file_len,
                                   const uint8_t *key, size_t key_len,
                                   uint64_t answer[8]);

/*
 * The key of an envelope. Its chunks are not judged.
 * Answered: key is written; no word of the answer is named.
 * Refused: 20, 21, 22 and 50 as opening refuses.
 */
uint32_t dwarnizza_envelope_key(const uint8_t *file, size_t file_len,
                                uint8_t key[16], uint64_t answer[8]);

/*
 * Encoding file
 *
 * An encoding file, taken out of its envelope, gives for each content key its
 * decoded size and its encoding keys, and for each encoding key its encoded
 * size and the spec that it was encoded by. It is a header of 22 bytes, the
 * table of specs, an index and pages of content entries, an index and pages of
 * encoding entries, and the file's own spec; numbers are big-endian. An index
 * has for each page its first key and its MD5. Content keys have C bytes and
 * encoding keys E, each 1 to 16 by the header.
 *
 * A content entry is the number of its encoding keys (1 byte), the decoded size
 * (5), the content key and the encoding keys; a number of 0 ends the page
 * early. An encoding entry is the encoding key, the number of its spec (4) and
 * the encoded size (5); with the number 0xFFFFFFFF, or 0 and a key of zeros, it
 * is padding and is skipped. Keys rise through all pages of a kind. A spec is
 * closed by a zero byte. Pages count from 0 within their kind, specs from 0.
 *
 * The full check refuses with the first that holds, in this order:
 *
 *     30, 31, 32, 33   the header or the parts are wrong
 *     page by page, first the content pages and then the encoding pages:
 *     34, 35           the page's hash is wrong, an entry runs over its end
 *     37               its stored first key is wrong, or it has no entry
 *     36               a key on it is not above the one before
 *     38               a spec number on it is past the table
 *
 * A lookup goes to the highest-numbered page of its kind whose stored first key
 * is not above the sought key, and through that page's entries to the first
 * with the sought key. It refuses with 30 to 33 as the full check does, then
 * with 39 where the key is not of C bytes, or of E, and makes no other check
 * but those named with it. In a file that passes the full check it finds
 * exactly the keys that stand there. In any other it answers by the same rule,
 * and may miss a key: check a file once before it is searched.
 *
 * Encoding keys and specs are handed back as parts of the file: the place of
 * the part's first byte in the file, and its length.
 */

/*
 * The full check of an encoding file.
 * Answered: it passes; no word of the answer is named.
 * Refused: as the full check refuses.
 */
uint32_t dwarnizza_encoding_check(const uint8_t *file, size_t file_len,
                                  uint64_t answer[8]);

/*
 * The lookup of a content key, of C bytes.
 * Answered: the key is found; answer[0] is the decoded size, [1] the number of
 * encoding keys, [2] and [3] the place and the length of these keys, which
 * stand one after the other.
 * Absent: no word of the answer is named.
 * Refused: as a lookup refuses; then 35, with the page, where an entry over the
 * page's end comes before the key is found.
 */
uint32_t dwarnizza_encoding_find_content(const uint8_t *file, size_t file_len,
                                         const uint8_t *key, size_t key_len,
                                         uint64_t answer[8]);

/*
 * The lookup of an encoding key, of E bytes.
 * Answered: the key is found; answer[0] is the number of its spec, [1] the
 * encoded size, [2] and [3] the place and the length of the spec, without its
 * zero byte.
 * Absent: no word of the answer is named.
 * Refused: as a lookup refuses; then 38 where the spec number of the entry
 * found is past the table.
 */
uint32_t dwarnizza_encoding_find_encoding(const uint8_t *file, size_t file_len,
                                          const uint8_t *key, size_t key_len,
                                          uint64_t answer[8]);

/*
 * The spec with this number.
 * Answered: answer[0] and [1] are the place and the length of the spec, without
 * its zero byte.
 * Refused: 30 to 33 as the full check refuses; then 38 where the number is past
 * the table.
 */
uint32_t dwarnizza_encoding_spec(const uint8_t *file, size_t file_len,
                                 uint32_t number, uint64_t answer[8]);

/*
 * Root file
 *
 * A root file, taken out of its envelope, gives content keys for file numbers
 * (FileDataIDs), and both for paths. It is a header and blocks; numbers are
 * little-endian. A header starts with "MFST" or "TSFM" and two numbers, a and b.
 * Where a is 16 to 99 and b is 1 to 4, the header is long: it has a bytes, and b
 * is the version, of which 4 is refused. Else it is short and has 12. A file that
 * starts otherwise has no header.
 *
 * A block is the count of its records (4 bytes), its flags, a delta for each
 * record (4), then content keys (16 each) and name hashes (8 each):
 *
 *     no header          content flags (4), locale flags (4); each key is
 *                        followed by its name hash
 *     a short header,    content flags (4), locale flags (4); all keys, then all
 *     or version 1       name hashes
 *     version 2 or 3     locale flags (4), content flags (4), 5 unknown bytes;
 *                        all keys, then all name hashes
 *
 * With a header, a block whose content flags have bit 28 (0x10000000) has no name
 * hashes. The first id of a block is its first delta, and each next id is the one
 * before, plus 1, plus the delta, a signed number; ids are 0 to 4,294,967,295 and
 * do not wrap.
 *
 * The full check refuses with the first that holds, in this order:
 *
 *     43           there is a magic, and the file is under 12 bytes
 *     44, 42, 43   the header is of version 4, is under 20 bytes, is cut
 *     block by block:
 *     40, 41       the block is cut, an id in it is outside its range
 */

/*
 * The full check of a root file.
 * Answered: it passes; no word of the answer is named.
 * Refused: as the full check refuses.
 */
uint32_t dwarnizza_root_check(const uint8_t *file, size_t file_len,
                              uint64_t answer[8]);

/*
 * The content key of an id: that of the first record with this id, in the order
 * of the file, in the blocks whose locale flags share a bit with locale and
 * whose content flags share none with unwanted.
 * Answered: it is found; key is written, and answer[0] is its place in the file.
 * Absent: key keeps its bytes; no word of the answer is named.
 * Refused: as the full check refuses, which is made first.
 */
uint32_t dwarnizza_root_find(const uint8_t *file, size_t file_len, uint32_t id,
                             uint32_t locale, uint64_t unwanted,
                             uint8_t key[16], uint64_t answer[8]);

/*
 * The content keys of many ids, each as dwarnizza_root_find finds it, with one
 * check of the file and one pass over it. ids are numbers of 4 bytes each,
 * big-endian, that rise; neighbours may be equal. For each id 20 bytes are
 * written: 1 where it is found and 0 where it is absent, three zeros, and the 16
 * bytes of its content key, zeros where it is absent.
 * Answered: the first 20 * (ids_len / 4) bytes of output are written, and those
 * past them stay; answer[0] is how many were written.
 * Refused: as the full check refuses, which is made first; then 12 where ids_len
 * is no multiple of 4; then 161, with the number of the first id that is below
 * the one before, from 0; then 13 where output is shorter than what is written.
 */
uint32_t dwarnizza_root_find_many(const uint8_t *file, size_t file_len,
                                  const uint8_t *ids, size_t ids_len,
                                  uint32_t locale, uint64_t unwanted,
                                  uint8_t *output, size_t output_len,
                                  uint64_t answer[8]);

/*
 * The name hash of a path, which may be any bytes. Of these, a to z become their
 * capitals and slashes become backslashes; all others stay, those above 127 too.
 * Their hash is Bob Jenkins' hashlittle2 with both starting values 0: its result
 * c is the upper half of the name hash, b the lower.
 * Answered: answer[0] is the name hash.
 * Refused: 110 where path_len is above 1024.
 */
uint32_t dwarnizza_name_hash(const uint8_t *path, size_t path_len,
                             uint64_t answer[8]);

/*
 * The id and the content key of a path: those of the first record whose name
 * hash is that of the path, as dwarnizza_name_hash gives it, in the order of the
 * file, in the blocks that have name hashes and count as for
 * dwarnizza_root_find.
 * Answered: it is found; key is written, answer[0] is the id, and answer[1] is
 * the key's place in the file.
 * Absent: key keeps its bytes; no word of the answer is named.
 * Refused: 110 where path_len is above 1024; then as the full check refuses.
 */
uint32_t dwarnizza_root_find_path(const uint8_t *file, size_t file_len,
                                  const uint8_t *path, size_t path_len,
                                  uint32_t locale, uint64_t unwanted,
                                  uint8_t key[16], uint64_t answer[8]);

/*
 * Chain
 *
 * The chain leads from a file number to the encoded size and the location of
 * the file. It has three links, and each is a lookup from above:
 *
 *     1  root      dwarnizza_root_find gives the content key
 *     2  encoding  dwarnizza_encoding_find_content gives the encoding keys, of
 *                  which the first is followed
 *     3  index     dwarnizza_index_lookup gives the size and the location
 *
 * The first link that is absent or refuses ends the chain, and the files of
 * later links are not read. A build has an index for each archive: what is
 * absent at link 3 may be in another.
 */

/*
 * The size and the location of a file by its number, with the masks that
 * dwarnizza_root_find takes.
 * Answered: the file is found; the words are those of dwarnizza_index_lookup.
 * Absent: answer[2] is the link; at link 3 answer[4] is how many stored keys of
 * the index were compared.
 * Refused: as the lookup of the link refuses; answer[2] is the link. At link 2
 * that is 39 where C is not 16, and at link 3, after the opening checks of the
 * index, 10 where K is not E. A key is never cut or filled up.
 */
uint32_t dwarnizza_resolve(const uint8_t *root, size_t root_len,
                           const uint8_t *encoding, size_t encoding_len,
                           const uint8_t *index, size_t index_len, uint32_t id,
                           uint32_t locale, uint64_t unwanted,
                           uint64_t answer[8]);

/*
 * Key text
 *
 * The text of a key of K bytes is 2 * K hex digits, 0 to 9, a to f and A to F,
 * the higher of each two first. A key is never cut or filled up.
 */

/*
 * The key of this text, of key_length (K) bytes.
 * Answered: the first K bytes of key are written, and those past them stay;
 * answer[0] is K.
 * Refused: 11 where K is not 1 to 16; then 60 where text_len is not 2 * K; then
 * 61, with the place of the first character that is no hex digit, from 0.
 */
uint32_t dwarnizza_key_text(const uint8_t *text, size_t text_len,
                            uint32_t key_length, uint8_t key[16],
                            uint64_t answer[8]);

/*
 * Worklists
 *
 * A worklist is separated text (RFC 4180): any bytes, and a separator, which is
 * a byte and no quote (34), CR (13) or LF (10).
 *
 * A row begins at any byte before the text's end. Its fields stand one after the
 * other with a separator between each two, and it ends where the last one ends:
 * before LF, CR LF or a CR that no LF follows, or at the text's end. The next
 * row begins behind that line end, or at the text's end. An empty row has one
 * field, of no bytes.
 *
 * A field that begins with a quote is quoted. It goes up to and with its closing
 * quote, the first behind the opening one that is not doubled, and may hold
 * separators and line ends; two quotes in it stand for one. Any other field is
 * plain: it ends before the first separator, CR or LF, or at the text's end, and
 * a quote in it is a byte like any other.
 *
 * A row is malformed where another byte than a separator, CR or LF stands behind
 * a closing quote, at the place of that byte, and where a quoted field is never
 * closed, at the place of its opening quote. The first such place counts. A
 * malformed row ends at the first CR or LF from there on, or at the text's end.
 *
 * The rows from byte 0 on, each with its line end, are the text:
 *
 *     at = 0;
 *     while (dwarnizza_worklist_row(text, text_len, at, ',', answer) ==
 *            DWARNIZZA_ANSWERED) {
 *         the row is text[at] up to text[answer[0]];
 *         at = answer[1];
 *     }
 *
 * Places are byte offsets in the whole text.
 */

/*
 * The row that begins at byte at.
 * Answered: answer[0] is where the row ends, [1] where the next begins, [2] the
 * number of its fields. Where it is malformed, [2] is 0, [3] is 1 and [4] is the
 * place.
 * Absent: at is at the text's end or behind it; no word of the answer is named.
 * Refused: 11 where the separator is none.
 */
uint32_t dwarnizza_worklist_row(const uint8_t *text, size_t text_len, size_t at,
                                uint32_t separator, uint64_t answer[8]);

/*
 * The field of a column, from 0, of the row that begins at byte at.
 * Answered: answer[0] and [1] are the place and the length of the field, with
 * its quotes; [2] is 1 where it is quoted, else 0.
 * Absent: no row begins there, it is malformed, or it has no such field; no word
 * of the answer is named.
 * Refused: 11 where the separator is none.
 */
uint32_t dwarnizza_worklist_field(const uint8_t *text, size_t text_len,
                                  size_t at, uint32_t separator, size_t column,
                                  uint64_t answer[8]);

/*
 * The bytes that a field stands for: of a whole quoted field what is between its
 * quotes, with each doubled quote as one; any other bytes stand for themselves.
 * An output of field_len bytes is enough.
 * Answered: they are written to the start of output, and what is past them
 * stays; answer[0] is how many they are.
 * Refused: 13 where output is shorter.
 */
uint32_t dwarnizza_worklist_unquoted(const uint8_t *field, size_t field_len,
                                     uint8_t *output, size_t output_len,
                                     uint64_t answer[8]);

/*
 * The file number (FileDataID) that this is the decimal text of: digits alone,
 * with no zero in front of others, and at most 4,294,967,295. So no two texts
 * have the same number.
 * Answered: answer[0] is the number.
 * Absent: the text is no file number. answer[0] says why, by the first that
 * holds, and [1] is the place of the byte, from 0:
 *
 *     1  it is empty; place 0
 *     2  it begins with 0, and more follows; place 0
 *     3  a byte is no digit; the place of the first
 *     4  it is above 4,294,967,295; the digit by which it passes that
 */
uint32_t dwarnizza_file_number(const uint8_t *text, size_t text_len,
                               uint64_t answer[8]);

#ifdef __cplusplus
}
#endif

#endif
