/* Many levels of OpenJPEG's own 5-3 row functions, on a row of a power of two samples. Built by bench/openjpeg. */
#include "dwt.c"

/* The row becomes the deepest approximations, then the details, deepest first. */
void rows_forward(OPJ_INT32 *row, OPJ_INT32 *work, OPJ_UINT32 length, OPJ_UINT32 levels)
{
    for (; levels > 0; levels--, length /= 2)
        opj_dwt_encode_and_deinterleave_h_one_row(row, work, length, OPJ_TRUE);
}

void rows_inverse(OPJ_INT32 *row, OPJ_INT32 *work, OPJ_UINT32 length, OPJ_UINT32 levels)
{
    OPJ_INT32 half;
    for (half = (OPJ_INT32)(length >> levels); levels > 0; levels--, half *= 2) {
        opj_dwt_t level = {work, half, half, 0};
        opj_idwt53_h(&level, row);
    }
}
