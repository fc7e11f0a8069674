// What is installed is used from C++: the header has its names in C's way, and the library links.
#include <yard.h>
#include <cstdio>

int main() {
  const uint8_t alone[] = {0, 0, 0};
  yard_told told = yard_ask(alone, sizeof alone);
  std::printf("%d %d: %d %d %d %d, stack %d\n", told.number, told.place, told.least, told.ours, told.most, told.times, YARD_LIST_STACK);
}
