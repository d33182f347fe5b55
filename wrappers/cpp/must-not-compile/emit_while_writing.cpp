#include <abt.hpp>
void misuse(abt::idle idle, abt::writing<abt::idle> writing)
{
    (void)idle.emit(abt::picoseconds(0));
#ifdef MISUSE
    (void)writing.emit(abt::picoseconds(0));
#endif
}
