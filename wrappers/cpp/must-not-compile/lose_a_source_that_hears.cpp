#include <abt.hpp>
#pragma GCC diagnostic error "-Wunused-result"
void misuse(abt::asking asking, abt::answer answer)
{
#ifdef MISUSE
    std::move(asking).hear(answer);
#else
    (void)std::move(asking).hear(answer);
#endif
}
