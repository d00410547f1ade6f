/* Draws a small picture, writes it as PNG into memory, and reads it back. Tells by which libraries
   it did so, and the CRC-32 of the points before and after. */
#include <png.h>
#include <stdio.h>
#include <stdlib.h>
#include <zlib.h>

#define SIDE 64

static unsigned char drawn[SIDE * SIDE], back[SIDE * SIDE], file[4 * SIDE * SIDE];

static void need(int is_done, const png_image *image)
{
    if (!is_done) {
        fprintf(stderr, "roundtrip: %s\n", image->message);
        exit(1);
    }
}

int main(void)
{
    png_alloc_size_t length = sizeof file;
    png_image written = {.version = PNG_IMAGE_VERSION, .format = PNG_FORMAT_GRAY};
    png_image read = {.version = PNG_IMAGE_VERSION};
    unsigned long before, after;

    written.width = written.height = SIDE;
    for (int i = 0; i < SIDE * SIDE; i++)
        drawn[i] = 4 * (i / SIDE ^ i % SIDE);
    need(png_image_write_to_memory(&written, file, &length, 0, drawn, 0, NULL), &written);
    need(png_image_begin_read_from_memory(&read, file, length), &read);
    read.format = PNG_FORMAT_GRAY;
    need(png_image_finish_read(&read, NULL, back, 0, NULL), &read);

    before = crc32(0, drawn, sizeof drawn);
    after = crc32(0, back, sizeof back);
    printf("libpng %s and zlib %s: %lu bytes, CRC-32 %08lx, then %08lx\n",
           png_get_libpng_ver(NULL), zlibVersion(), (unsigned long)length, before, after);
    return before != after;
}
