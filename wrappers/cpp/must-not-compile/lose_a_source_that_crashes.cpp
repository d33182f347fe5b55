#include <abt.hpp>
#pragma GCC diagnostic error "-Wunused-result"
void misuse(abt::idle idle)
{
#ifdef MISUSE
    std::move(idle).crash();
#else
    (void)std::move(idle).crash();
#endif
}
