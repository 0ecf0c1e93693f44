/* The turn of a call on a database, so that calls come one after another. */
#include "_mmdb.h"

static PyTypeObject *turn_type;

/* The lock that the turn of a call of this thread is. */
static PyThread_type_lock lock_of(const Turn *turn)
{
    return turn->keeper != 0 && turn->keeper == PyThread_get_thread_ident() ? turn->own : turn->lock;
}

void take(Turn *turn)
{
    PyThread_type_lock lock = lock_of(turn);
    if (PyThread_acquire_lock(lock, NOWAIT_LOCK))
        return;
    Py_BEGIN_ALLOW_THREADS
    PyThread_acquire_lock(lock, WAIT_LOCK);
    Py_END_ALLOW_THREADS
}

int take_now(Turn *turn)
{
    return PyThread_acquire_lock(lock_of(turn), NOWAIT_LOCK) == PY_LOCK_ACQUIRED;
}

void give(Turn *turn)
{
    PyThread_release_lock(lock_of(turn));
}

/* A new lock in the place of one that is taken, which can't be freed. */
static int renew(PyThread_type_lock *lock)
{
    if (PyThread_acquire_lock(*lock, NOWAIT_LOCK)) {
        PyThread_release_lock(*lock);
        return 0;
    }
    PyThread_type_lock fresh = PyThread_allocate_lock();
    if (fresh == NULL) {
        PyErr_NoMemory();
        return -1;
    }
    *lock = fresh;
    return 0;
}

int renew_turn(Turn *turn)
{
    if (turn->keeper == PyThread_get_thread_ident())
        return renew(&turn->own);
    if (renew(&turn->lock) < 0 || renew(&turn->own) < 0)
        return -1;
    turn->keeper = 0;
    turn->depth = 0;
    return 0;
}

PyObject *new_turn(void)
{
    Turn *turn = (Turn *)PyType_GenericAlloc(turn_type, 0);
    if (turn == NULL)
        return NULL;
    turn->lock = PyThread_allocate_lock();
    turn->own = PyThread_allocate_lock();
    if (turn->lock == NULL || turn->own == NULL) {
        Py_DECREF(turn);
        return PyErr_NoMemory();
    }
    return (PyObject *)turn;
}

static void turn_dealloc(PyObject *self)
{
    Turn *turn = (Turn *)self;
    if (turn->lock != NULL)
        PyThread_free_lock(turn->lock);
    if (turn->own != NULL)
        PyThread_free_lock(turn->own);
    free_object(self);
}

static PyObject *turn_enter(PyObject *self, PyObject *Py_UNUSED(none))
{
    take((Turn *)self);
    return none();
}

static PyObject *turn_exit(PyObject *self, PyObject *Py_UNUSED(why))
{
    give((Turn *)self);
    return none();
}

static PyMethodDef turn_methods[] = {
    { "__enter__", turn_enter, METH_NOARGS, "Waits for its turn." },
    { "__exit__", turn_exit, METH_VARARGS, "Ends it." },
    { NULL, NULL, 0, NULL },
};

static PyType_Slot turn_slots[] = {
    { Py_tp_doc, (void *)"The turn of one call, while which no other is done." },
    { Py_tp_dealloc, turn_dealloc },
    { Py_tp_methods, turn_methods },
    { 0, NULL },
};

static PyType_Spec turn_spec = {
    .name = "mmdb._mmdb.Turn",
    .basicsize = sizeof(Turn),
    .flags = Py_TPFLAGS_DEFAULT | Py_TPFLAGS_DISALLOW_INSTANTIATION,
    .slots = turn_slots,
};

int turns_begin(void)
{
    turn_type = (PyTypeObject *)PyType_FromSpec(&turn_spec);
    return turn_type == NULL ? -1 : 0;
}
