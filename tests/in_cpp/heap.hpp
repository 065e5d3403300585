/// A heap of the host's own for the library: it counts what is held and what was taken, and refuses what it is told to.
#pragma once

#include <cstddef>
#include <cstdint>
#include <cstdlib>

/// The heap of one thread.
struct Heap {
  /// How many blocks are held, and how many were asked for.
  std::uint64_t held = 0, asked = 0;
  /// Which asking is refused; none where this is 0.
  std::uint64_t refused = 0;

  bool is_refused() { return ++asked == refused; }
};

inline thread_local Heap heap;

/// Whether there is a block, and where.
struct Block {
  std::uint64_t is_there;
  void *at;
};

extern "C" {

inline Block rattle_alloc(std::size_t size, std::size_t align);
inline Block rattle_realloc(void *at, std::size_t size, std::size_t wanted, std::size_t align);
inline void rattle_dealloc(void *at, std::size_t size, std::size_t align);

[[gnu::used]] Block rattle_alloc(std::size_t size, std::size_t align) {
  void *const at = heap.is_refused() ? nullptr : std::malloc(size == 0 ? align : size);
  heap.held += at != nullptr;
  return {at != nullptr, at ? at : &heap};
}

[[gnu::used]] Block rattle_realloc(void *at, std::size_t, std::size_t wanted, std::size_t align) {
  void *const moved = heap.is_refused() ? nullptr : std::realloc(at, wanted == 0 ? align : wanted);
  return {moved != nullptr, moved ? moved : &heap};
}

[[gnu::used]] void rattle_dealloc(void *at, std::size_t, std::size_t) {
  --heap.held;
  std::free(at);
}
}
