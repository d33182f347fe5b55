#include <abt.hpp>
#pragma GCC diagnostic error "-Wunused-result"
void misuse(abt::down down)
{
#ifdef MISUSE
    std::move(down).start(nullptr, 0, abt::picoseconds(0));
#else
    (void)std::move(down).start(nullptr, 0, abt::picoseconds(0));
#endif
}
