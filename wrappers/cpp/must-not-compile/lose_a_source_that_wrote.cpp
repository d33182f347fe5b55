#include <abt.hpp>
#pragma GCC diagnostic error "-Wunused-result"
void misuse(abt::writing<abt::idle> writing)
{
#ifdef MISUSE
    std::move(writing).wrote(abt::became::written);
#else
    (void)std::move(writing).wrote(abt::became::written);
#endif
}
