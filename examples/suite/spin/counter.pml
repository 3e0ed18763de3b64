/* What counter.h asks: once all harts have ended, the counter has each one's addition. The last of them looks, in
   the step with which it ends; so nothing of this is a state of its own. */
byte counter, ended;

inline ends()
{
    ended++;
    assert(ended < HARTS || counter == HARTS)
}
