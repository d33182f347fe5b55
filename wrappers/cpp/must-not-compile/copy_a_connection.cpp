#include <abt.hpp>
void misuse(abt::connection connection)
{
#ifdef MISUSE
    abt::connection second = connection;
#else
    abt::connection second = std::move(connection);
#endif
    (void)second;
}
