Register Stream S (a);
Query q: Select Istream(a) From S [Range 2] Where a > 15;
