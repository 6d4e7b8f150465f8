int is_lower(char c) { return c >= 'a' && c <= 'z'; }

int is_upper(char c) { return c >= 'A' && c <= 'Z'; }
