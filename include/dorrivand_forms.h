/*
 * From the old image to the new and back. dorrivand.h includes this header, and says what a caller must see to and what the
 * words mean.
 *
 * Versions before 7 save and load images of form 1, 897 cells, later ones those of form 2, 961 cells. Both hold the same
 * records, but a begin or an end in form 1 is at most 16,777,215. An old backup is restored by dorrivand_up and then
 * dorrivand_load, over the store's cells that belong to it: a move changes neither store nor tables, and is lent neither.
 *
 * The image is judged as by a load, over a store of as many segments as the caller says: floor(store_length / 64), or any
 * greater number where the load is to decide. An image that is moved and moved back has the same cells.
 */
#ifndef DORRIVAND_FORMS_H
#define DORRIVAND_FORMS_H

#include <stddef.h>
#include <stdint.h>

#ifdef __cplusplus
extern "C" {
#endif

/* The one length of an image of form 1, in cells. That of form 2 is dorrivand_image_length. */
size_t dorrivand_old_image_length(void);

/* Up: writes the image of form 1 as one of form 2.
 * Refusals: 22 for a wrong length of either image, or an unsound old one. */
uint64_t dorrivand_up(const uint32_t *old, size_t old_length, uint32_t *image, size_t image_length, uint32_t segments);

/* Down: writes the image of form 2 as one of form 1. A version before 6 does not know species 6, and will not load an image
 * that has a file of it.
 * Refusals: 22 for a wrong length of either image, or an unsound new one; 24 if a begin or an end is above 16,777,215. */
uint64_t dorrivand_down(const uint32_t *image, size_t image_length, uint32_t *old, size_t old_length, uint32_t segments);

#ifdef __cplusplus
}
#endif

#endif
