#include <abt.hpp>
#pragma GCC diagnostic error "-Wunused-result"
void misuse(abt::idle idle)
{
#ifdef MISUSE
    std::move(idle).ask(abt::code(0x5120));
#else
    (void)std::move(idle).ask(abt::code(0x5120));
#endif
}
