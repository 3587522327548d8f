* Problem:    producers
* Class:      LP
* Rows:       6
* Columns:    6
* Non-zeros:  11
* Format:     Free MPS
*
NAME producers
ROWS
 N cost
 L cap1
 L cap2
 G sell1
 G sell2
 G need
COLUMNS
 p cost 1 sell1 -1
 p sell2 -1
 s cost 0.75 need 1
 q[1] cap1 1 need 1
 q[2] cap2 1 need 1
 u[1] sell1 1
 u[2] sell2 1
RHS
 RHS1 cap1 4 cap2 3
 RHS1 sell1 -2 sell2 -5
 RHS1 need 6
BOUNDS
 UP BND1 p 9
ENDATA
