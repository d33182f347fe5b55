#include <abt.hpp>
std::chrono::duration<std::uint64_t, std::nano> misuse(abt::emission emission)
{
#ifdef MISUSE
    return emission.next;
#else
    return std::chrono::duration_cast<std::chrono::duration<std::uint64_t, std::nano>>(emission.next);
#endif
}
