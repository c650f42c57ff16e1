// The prices that four windows hold, at each instant.
Register Stream Orders (price, amount);
Query at_once: Select Rstream(price) From Orders [Now];
Query lately: Select Rstream(price) From Orders [Range 2];
Query latest: Select Rstream(price) From Orders [Rows 2];
Query so_far: Select Rstream(price) From Orders [Range Unbounded];
