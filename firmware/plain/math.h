double atan2(double y, double x);
