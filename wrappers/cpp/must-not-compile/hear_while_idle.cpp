#include <abt.hpp>
void misuse(abt::asking asking, abt::idle idle, abt::answer answer)
{
    (void)std::move(asking).hear(answer);
#ifdef MISUSE
    (void)std::move(idle).hear(answer);
#endif
}
