// Commits the record of a compaction whose worker stopped half way, and lists the image before and after. The image has run 7
// with table 1 from a to z, and run 9 with table 2 from c to x; the job compacts both into run 7, in two parts.
//
//     c++ -std=c++11 commit.cpp $(pkg-config --cflags --libs bilqarush) -o commit
#include <bilqarush.h>

#include <cstdint>
#include <iostream>
#include <random>
#include <stdexcept>
#include <string>
#include <vector>

namespace {

using Bytes = std::vector<std::uint8_t>;

// Two types: an image and a job that are exchanged do not compile.
struct Image {
    Bytes bytes;
};
struct Job {
    Bytes bytes;
};

// Throws after a stop.
void answered(std::uint8_t stop) {
    if (stop != 0) {
        throw std::runtime_error("stop " + std::to_string(stop) + ": " + bilqarush_stop_text(stop));
    }
}

// ---- the calls, with buffers that are always long enough

std::string list(const Image &image) {
    Bytes text(BILQARUSH_LISTING_LEN);
    std::size_t written = 0;
    answered(bilqarush_list(image.bytes.data(), image.bytes.size(), text.data(), text.size(), &written));
    return std::string(text.begin(), text.begin() + static_cast<std::ptrdiff_t>(written));
}

// Random bytes for the ids that a commit draws. They are fresh for each commit: equal bytes can make equal ids.
Bytes fresh_ids() {
    std::random_device random;
    Bytes ids(BILQARUSH_IDS_LEN);
    for (std::uint8_t &byte : ids) {
        byte = static_cast<std::uint8_t>(random());
    }
    return ids;
}

Image commit(const Image &image, const Job &job) {
    const Bytes ids = fresh_ids();
    Bytes out(BILQARUSH_IMAGE_LEN);
    std::size_t written = 0;
    answered(bilqarush_commit(image.bytes.data(), image.bytes.size(), job.bytes.data(), job.bytes.size(), ids.data(),
                              ids.size(), out.data(), out.size(), &written));
    out.resize(written);
    return Image{out};
}

// ---- the layouts of bilqarush.h: each field after the one before it, most significant byte first

class Writer {
public:
    Bytes bytes;

    Writer &number(std::uint64_t number, int width) {
        while (width-- > 0) {
            bytes.push_back(static_cast<std::uint8_t>(width < 8 ? number >> (8 * width) : 0));
        }
        return *this;
    }

    Writer &key(const std::string &key) {
        number(key.size(), 2);
        bytes.insert(bytes.end(), key.begin(), key.end());
        return *this;
    }

    // A table with a last key: id, index_offset, index_len, filter_offset, flag, keys.
    Writer &table(std::uint64_t id, const std::string &first, const std::string &last) {
        return number(id, 16).number(4096, 8).number(256, 8).number(3840, 8).number(0x80, 1).key(first).key(last);
    }

    // A run of one view, which has the id of its table and shows all of it.
    Writer &run(std::uint32_t id, std::uint64_t shown, const std::string &first, const std::string &last) {
        return number(id, 4).number(1 << 4, 2).number(shown, 16).table(shown, first, last).number(0, 1);
    }

    // The kinds of a range's two bounds, each in 2 bits, and padding.
    Writer &kinds(unsigned start, unsigned end) {
        return number(start << 6 | end << 4, 1);
    }

    // An unfinished part has the flag 0, and then 15 bits for the count of its outputs.
    Writer &outputs(std::uint16_t count) {
        return number(count, 2);
    }
};

Image old_image() {
    Writer image;
    image.number(2, 1).run(7, 1, "a", "z").run(9, 2, "c", "x");
    return Image{image.bytes};
}

// Up to m the worker has written tables from a to e and from f to h, from m on one from m to p.
Job half_way() {
    Writer job;
    job.number(7, 4);                           // destination
    job.number(2, 1).number(7, 4).number(9, 4); // sources
    job.number(2, 1);                           // parts
    job.kinds(BILQARUSH_UNBOUNDED, BILQARUSH_EXCLUDED).key("m");
    job.outputs(2).table(0x11, "a", "e").table(0x12, "f", "h");
    job.kinds(BILQARUSH_INCLUDED, BILQARUSH_UNBOUNDED).key("m");
    job.outputs(1).table(0x21, "m", "p");
    return Job{job.bytes};
}

} // namespace

int main() {
    try {
        const Image before = old_image();
        std::cout << "before:\n" << list(before);
        const Image after = commit(before, half_way());
        std::cout << "after the commit:\n" << list(after);
        return 0;
    } catch (const std::runtime_error &refusal) {
        std::cerr << "commit: " << refusal.what() << '\n';
        return 1;
    }
}
