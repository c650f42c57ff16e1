Register Stream S (a); Query q: Select Istream(b) From S [Now];
