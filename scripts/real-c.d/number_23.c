#include "number.h"

int main(void) {
  return differs_somewhere(23);
}
