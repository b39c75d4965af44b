/* The calls under test: the archive's, or with -DMODEL the model's, so that the same lines try both. */
#ifdef MODEL
#include "model.h"
#define LINEBOX_STATE MODEL_STATE
#define linebox_fresh model_fresh
#define linebox_host model_host
#define linebox_line model_line
#define linebox_tu model_tu
#define linebox_find model_find
#else
#include "linebox.h"
#endif
