/* CRoaring as plain functions: its header defines some of them inline. */
#include <roaring/roaring.h>

roaring_bitmap_t *bench_new(void) {
    roaring_bitmap_t *bitmap = roaring_bitmap_create();
    if (bitmap != NULL) roaring_bitmap_set_copy_on_write(bitmap, true);
    return bitmap;
}

bool bench_contains(const roaring_bitmap_t *bitmap, uint32_t position) { return roaring_bitmap_contains(bitmap, position); }

/* The sum of the set positions. */
uint64_t bench_sum(const roaring_bitmap_t *bitmap) {
    uint64_t sum = 0;
    roaring_uint32_iterator_t at;
    for (roaring_init_iterator(bitmap, &at); at.has_value; roaring_advance_uint32_iterator(&at)) sum += at.current_value;
    return sum;
}
