#include <abt.hpp>
void misuse(abt::idle idle)
{
#ifdef MISUSE
    (void)idle.ask(abt::code(0x5120));
#else
    (void)std::move(idle).ask(abt::code(0x5120));
#endif
}
