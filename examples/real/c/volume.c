/* Nothing asks for it, so the archive's member stays outside. */
double volume(double edge) { return edge * edge * edge; }

double scale(double value) { return value * 3.0; }
