#include <abt.hpp>
void misuse(abt::idle idle, abt::down down)
{
    (void)std::move(idle).ask(abt::code(0x5120));
#ifdef MISUSE
    (void)std::move(down).ask(abt::code(0x5120));
#endif
}
