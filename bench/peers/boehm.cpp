// The same interpreter over the collector of Boehm, Demers and Weiser: incremental if GC_ENABLE_INCREMENTAL is in the environment.
#define GC_THREADS
#include <gc.h>

#include "objects.hpp"

namespace {

// The collector finds pages that were written by protecting them, or by the system's dirty bits: it wants no call at a store.
struct Boehm {
    static objects::Object **variables() {
        return static_cast<objects::Object **>(GC_MALLOC_UNCOLLECTABLE(32 * sizeof(objects::Object *)));
    }

    template <class Do>
    static void in_thread(Do what) {
        GC_stack_base base;
        GC_get_stack_base(&base);
        GC_register_my_thread(&base);
        what();
        GC_unregister_my_thread();
    }

    static void stored(objects::Object *) {}
    static void collect() { GC_gcollect(); }

    class Room {
      public:
        explicit Room(uint32_t fields) : size_(sizeof(objects::Object) + fields * sizeof(objects::Object *)) {}
        objects::Object *make() { return static_cast<objects::Object *>(GC_MALLOC(size_)); }

      private:
        size_t size_;
    };
};

}  // namespace

int main(int count, char **words) {
    GC_INIT();
    GC_allow_register_threads();
    return objects::play_input<Boehm>(count, words);
}
