// A plain interpreter that never frees: what a script costs without a collector. Objects lie one behind the other in pieces of a mebibyte.
#include <cstdlib>

#include "objects.hpp"

namespace {

struct Never {
    static objects::Object **variables() { return static_cast<objects::Object **>(calloc(32, sizeof(objects::Object *))); }

    template <class Do>
    static void in_thread(Do what) {
        what();
    }

    static void stored(objects::Object *) {}
    static void collect() {}

    // Where one part of a section makes its objects.
    class Room {
      public:
        explicit Room(uint32_t fields) : size_(sizeof(objects::Object) + fields * sizeof(objects::Object *)) {}

        objects::Object *make() {
            if (static_cast<size_t>(end_ - next_) < size_) {
                next_ = static_cast<char *>(malloc(kPiece));
                end_ = next_ + kPiece;
            }
            char *object = next_;
            next_ += size_;
            return reinterpret_cast<objects::Object *>(object);
        }

      private:
        static constexpr size_t kPiece = size_t{1} << 20;
        size_t size_;
        char *next_ = nullptr, *end_ = nullptr;
    };
};

}  // namespace

int main(int count, char **words) { return objects::play_input<Never>(count, words); }
