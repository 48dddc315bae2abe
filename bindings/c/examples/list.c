/*
 * Lists an image:
 *
 *     list [FILE]
 *
 * Without a file it makes an image and lists that: run 7 with table 1 from a to z, and run 9 with table 2 from c to x. A refused
 * image ends it with status 1, and standard error says why.
 *
 *     cc list.c $(pkg-config --cflags --libs bilqarush) -o list
 */
#include <bilqarush.h>

#include <stdio.h>
#include <string.h>

/* One byte more than an image may have: a file that is too long is then refused, and not cut. */
static uint8_t image[BILQARUSH_MAX_BUFFER + 1];
static size_t image_len = 0;

/* The layouts are those of bilqarush.h: each field after the one before it, most significant byte first. */
static void put_number(uint64_t number, int bytes) {
    while (bytes-- > 0) {
        image[image_len++] = (uint8_t)(bytes < 8 ? number >> (8 * bytes) : 0);
    }
}

static void put_key(const char *key) {
    size_t length = strlen(key);
    put_number(length, 2);
    memcpy(image + image_len, key, length);
    image_len += length;
}

static void put_table(uint64_t id, const char *first, const char *last) {
    put_number(id, 16);
    put_number(4096, 8); /* index_offset */
    put_number(256, 8);  /* index_len */
    put_number(3840, 8); /* filter_offset */
    put_number(0x80, 1); /* a last key is there, and padding */
    put_key(first);
    put_key(last);
}

/* A run of one view, which shows all of its table. */
static void put_run(uint32_t id, uint64_t table, const char *first, const char *last) {
    put_number(id, 4);
    put_number(1 << 4, 2); /* 12 bits: one view; 4 bits: padding */
    put_number(table, 16); /* the view's own id; that of its table will do */
    put_table(table, first, last);
    put_number(0, 1); /* no visible range, and padding */
}

static void make_image(void) {
    put_number(2, 1); /* runs */
    put_run(7, 1, "a", "z");
    put_run(9, 2, "c", "x");
}

static bool read_image(const char *path) {
    FILE *file = fopen(path, "rb");
    if (file == NULL) {
        return false;
    }
    image_len = fread(image, 1, sizeof image, file);
    bool whole = !ferror(file);
    fclose(file);
    return whole;
}

static int refused(uint8_t stop) {
    fprintf(stderr, "list: stop %d: %s\n", stop, bilqarush_stop_text(stop));
    return 1;
}

int main(int count, char **words) {
    static uint8_t listing[BILQARUSH_LISTING_LEN];
    size_t written = 0;

    if (count < 2) {
        make_image();
    } else if (!read_image(words[1])) {
        perror(words[1]);
        return 2;
    }

    uint8_t stop = bilqarush_check_image(image, image_len);
    if (stop != 0) {
        return refused(stop);
    }
    printf("an image of %zu bytes:\n", image_len);
    stop = bilqarush_list(image, image_len, listing, sizeof listing, &written);
    if (stop != 0) {
        return refused(stop);
    }
    fwrite(listing, 1, written, stdout);
    return 0;
}
