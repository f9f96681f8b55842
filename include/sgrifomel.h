/* The calls of libsgrifomel.a (tools/archive). */
#ifndef SGRIFOMEL_H
#define SGRIFOMEL_H

#include <stddef.h>
#include <stdint.h>

#ifdef __cplusplus
extern "C" {
#endif

/* A call answers one word: the number of the refusal in bits 0 to 7, or 0; the mark in bit 8, which is 1 when any clip within a
   DCT pass changed a value; the place from bit 16 up. */
static inline unsigned sgrifomel_number(uint64_t answer) {
    return (unsigned)(answer & 0xff);
}

static inline int sgrifomel_mark(uint64_t answer) {
    return (int)(answer >> 8 & 1);
}

static inline uint64_t sgrifomel_place(uint64_t answer) {
    return answer >> 16;
}

/* The numbers of refusal, in the order of the checks. A refusal leaves every buffer as it was, with mark 0. 9, 10, 14, 21
   and the writer's 23 carry the place of the first offender, counted from 0: of 9 and 10 its place in coeff, of 14 the number of the
   element, whatever the stride. The others carry 0. */
enum {
    SGRIFOMEL_ACCEPTED = 0,
    SGRIFOMEL_SIZE = 1,         /* size not among the fourteen */
    SGRIFOMEL_TYPE = 2,         /* type unknown, or not for this size */
    SGRIFOMEL_DEPTH = 3,        /* depth not 8, 10, 12 */
    SGRIFOMEL_EOB = 4,          /* eob negative */
    SGRIFOMEL_LIVE_ROWS = 5,    /* r not in 1..h */
    SGRIFOMEL_COEFFICIENTS = 6, /* fewer than w*h coefficients */
    SGRIFOMEL_VISIBLE = 20,     /* visible columns not in 1..w, or visible rows not in 1..h */
    SGRIFOMEL_STRIDE = 7,       /* byte stride odd, or pixel stride between -(w-1) and w-1 */
    SGRIFOMEL_ROW = 8,          /* the visible part of some visible row not wholly inside the plane */
    SGRIFOMEL_RANGE = 9,        /* one of the first w*h coefficients outside the row range */
    SGRIFOMEL_STRAY = 10,       /* nonzero coefficient in a row r or later */
    SGRIFOMEL_PIXEL = 21,       /* visible pixel above the depth's maximum, 255, 1023 or 4095; its place is row * w + column */
    SGRIFOMEL_PASS_RANGE = 11,  /* min..max not -m..m-1 with m 32768, 131072 or 524288 */
    SGRIFOMEL_PASS_STRIDE = 12, /* stride 0 */
    SGRIFOMEL_PASS_SHORT = 13,  /* c ends before the last element */
    SGRIFOMEL_PASS_ELEMENT = 14 /* element outside min..max; for the WHT outside -16777216..16777215 */
};

/* One-dimensional passes over elements 0, stride, 2*stride, .. of the len numbers at c, which nothing else may touch during
   the call. The name has the number of elements; what stands between and after them stays. */
uint64_t sgrifomel_inv_dct4_1d(int32_t *c, size_t len, size_t stride, int32_t min, int32_t max);
uint64_t sgrifomel_inv_dct8_1d(int32_t *c, size_t len, size_t stride, int32_t min, int32_t max);
uint64_t sgrifomel_inv_dct16_1d(int32_t *c, size_t len, size_t stride, int32_t min, int32_t max);
uint64_t sgrifomel_inv_dct32_1d(int32_t *c, size_t len, size_t stride, int32_t min, int32_t max);
uint64_t sgrifomel_inv_identity4_1d(int32_t *c, size_t len, size_t stride, int32_t min, int32_t max);
uint64_t sgrifomel_inv_identity8_1d(int32_t *c, size_t len, size_t stride, int32_t min, int32_t max);
uint64_t sgrifomel_inv_identity16_1d(int32_t *c, size_t len, size_t stride, int32_t min, int32_t max);
uint64_t sgrifomel_inv_identity32_1d(int32_t *c, size_t len, size_t stride, int32_t min, int32_t max);
uint64_t sgrifomel_inv_adst4_1d(int32_t *c, size_t len, size_t stride, int32_t min, int32_t max);
uint64_t sgrifomel_inv_flipadst4_1d(int32_t *c, size_t len, size_t stride, int32_t min, int32_t max);
uint64_t sgrifomel_inv_wht4_1d(int32_t *c, size_t len, size_t stride);

/* DCTs of half inputs: the upper half of the elements is taken as zero. It is not read, so number 14 looks at the lower half only;
   all elements are written, so number 13 asks for all. */
uint64_t sgrifomel_inv_dct4_half_1d(int32_t *c, size_t len, size_t stride, int32_t min, int32_t max);
uint64_t sgrifomel_inv_dct8_half_1d(int32_t *c, size_t len, size_t stride, int32_t min, int32_t max);
uint64_t sgrifomel_inv_dct16_half_1d(int32_t *c, size_t len, size_t stride, int32_t min, int32_t max);
uint64_t sgrifomel_inv_dct32_half_1d(int32_t *c, size_t len, size_t stride, int32_t min, int32_t max);

/* Two-dimensional transforms, added to a block of w by h pixels. dst is a plane of dst_len pixels, 16 bits each at every
   depth; row y of the block starts at pixel offset + y * (stride / 2): stride counts bytes and may be negative. Of the block
   the first columns pixels of the first rows rows are visible: only these are read and written, and only these need to be
   in the plane. A block that does not hang over the page's edge has columns w and rows h. The
   coefficient of row y, column x is coeff[y + x * h] of coeff_len. dst and coeff may not overlap, and nothing else may touch
   either during the call. Every other value of the arguments is checked. The first w*h coefficients become 0. With DCT_DCT
   and eob 0 the plain call uses and clears the first alone. The live-row call takes rows r and later for zero rows. */
/* A name has the column pass first, then the row pass. Types with an ADST or FLIPADST, and WHT_WHT, are for 4x4 only. */
enum {
    SGRIFOMEL_DCT_DCT = 0,
    SGRIFOMEL_ADST_DCT = 1,
    SGRIFOMEL_DCT_ADST = 2,
    SGRIFOMEL_ADST_ADST = 3,
    SGRIFOMEL_FLIPADST_DCT = 4,
    SGRIFOMEL_DCT_FLIPADST = 5,
    SGRIFOMEL_FLIPADST_FLIPADST = 6,
    SGRIFOMEL_ADST_FLIPADST = 7,
    SGRIFOMEL_FLIPADST_ADST = 8,
    SGRIFOMEL_IDTX = 9,        /* identity in rows and columns */
    SGRIFOMEL_V_DCT = 10,      /* rows identity, columns DCT; where w*h is at most 128, and 16x16 */
    SGRIFOMEL_H_DCT = 11,      /* rows DCT, columns identity; likewise */
    SGRIFOMEL_V_ADST = 12,     /* rows identity, columns ADST */
    SGRIFOMEL_H_ADST = 13,     /* rows ADST, columns identity */
    SGRIFOMEL_V_FLIPADST = 14, /* rows identity, columns FLIPADST */
    SGRIFOMEL_H_FLIPADST = 15, /* rows FLIPADST, columns identity */
    SGRIFOMEL_WHT_WHT = 16
};

uint64_t sgrifomel_inv_txfm_add(uint16_t *dst, size_t dst_len, uint32_t offset, int32_t stride, size_t columns,
                                size_t rows, int32_t *coeff, size_t coeff_len, int32_t eob, size_t w, size_t h,
                                size_t txtp, size_t depth);
uint64_t sgrifomel_inv_txfm_add_live(uint16_t *dst, size_t dst_len, uint32_t offset, int32_t stride, size_t columns,
                                     size_t rows, int32_t *coeff, size_t coeff_len, size_t r, size_t w, size_t h,
                                     size_t txtp, size_t depth);

/* The narrow calls: the two above, which are the wide ones, for pages of depth 8 at their own width, with 8-bit pixels and
   16-bit coefficients. stride counts bytes, which are pixels here, so it may be odd: row y starts at pixel
   offset + y * stride. The word and the refusals are those of the wide call on the same numbers at depth 8 with twice the
   stride, and so are the pixels and coefficients that are left. 3, 9 and 21 never occur, and 7 only where stride lies
   between -(w-1) and w-1. */
uint64_t sgrifomel_inv_txfm_add_8bpc(uint8_t *dst, size_t dst_len, uint32_t offset, int32_t stride, size_t columns,
                                     size_t rows, int16_t *coeff, size_t coeff_len, int32_t eob, size_t w, size_t h,
                                     size_t txtp);
uint64_t sgrifomel_inv_txfm_add_live_8bpc(uint8_t *dst, size_t dst_len, uint32_t offset, int32_t stride, size_t columns,
                                          size_t rows, int16_t *coeff, size_t coeff_len, size_t r, size_t w, size_t h,
                                          size_t txtp);

/* The wide calls by the second engine, which takes the steps of section 7.13 of the AV1 specification: no clip within a
   pass. Pixels and coefficients are those of the first engine wherever its mark is 0. Its own mark is always 0. Types with an
   ADST or FLIPADST are refused by 2. It is slow: it is there to be read, and to be compared with. */
uint64_t sgrifomel_spec_inv_txfm_add(uint16_t *dst, size_t dst_len, uint32_t offset, int32_t stride, size_t columns,
                                     size_t rows, int32_t *coeff, size_t coeff_len, int32_t eob, size_t w, size_t h,
                                     size_t txtp, size_t depth);
uint64_t sgrifomel_spec_inv_txfm_add_live(uint16_t *dst, size_t dst_len, uint32_t offset, int32_t stride, size_t columns,
                                          size_t rows, int32_t *coeff, size_t coeff_len, size_t r, size_t w, size_t h,
                                          size_t txtp, size_t depth);

/* The lossless writer: from a 4x4 residual, row by row, the sixteen coefficients of WHT_WHT in buffer order, that of row y,
   column x at coeff[y + x * 4]. sgrifomel_inv_txfm_add with SGRIFOMEL_WHT_WHT, any eob from 0 up and the same depth adds
   exactly that residual. Refusals, in this order: 3; 6 when either buffer is shorter than sixteen; 23, which carries the
   place of the first offender, counted from 0. Mark 0. What lies beyond the sixteen is not looked at and stays. The buffers
   may not overlap, and nothing else may touch either during the call. */
enum {
    SGRIFOMEL_RESIDUAL = 23 /* residual outside -maximum..maximum, which is 255, 1023 or 4095 by the depth */
};

uint64_t sgrifomel_fwd_wht4x4(const int32_t *residual, size_t residual_len, int32_t *coeff, size_t coeff_len, size_t depth);

#ifdef __cplusplus
}
#endif

#endif
