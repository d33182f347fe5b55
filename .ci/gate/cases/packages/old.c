const char *abt_version(void); const char *abt_version(void) { return "0.0.9"; }
