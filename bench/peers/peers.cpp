// Double intervals of Boost.Interval and of MPFI: two columns, made once, that are combined in one call.
#include <boost/numeric/interval.hpp>
#include <cstddef>
#include <mpfi.h>
#include <vector>

namespace {

// The operation numbers of the proved calls.
enum Operation { ADD = 0, SUBTRACT = 1, MULTIPLY = 2, DIVIDE = 3 };

const mpfr_prec_t DOUBLE_BITS = 53;

struct Columns {
    virtual ~Columns() {}
    virtual void combine(unsigned operation) = 0;
    // The answers as pairs of doubles, low before high.
    virtual void read(double *ends) const = 0;
};

template <class Interval>
void combine_each(unsigned operation, const std::vector<Interval> &left, const std::vector<Interval> &right,
                  std::vector<Interval> &answers) {
    const std::size_t length = answers.size();
    switch (operation) {
    case ADD:
        for (std::size_t row = 0; row < length; row++) answers[row] = left[row] + right[row];
        break;
    case SUBTRACT:
        for (std::size_t row = 0; row < length; row++) answers[row] = left[row] - right[row];
        break;
    case MULTIPLY:
        for (std::size_t row = 0; row < length; row++) answers[row] = left[row] * right[row];
        break;
    case DIVIDE:
        for (std::size_t row = 0; row < length; row++) answers[row] = left[row] / right[row];
        break;
    }
}

// Nothing to be held while a column is combined: each operation saves and restores the rounding mode itself.
struct Nothing {};

// Intervals of Boost, with what is held while a column is combined.
template <class Interval, class Held> struct BoostColumns : Columns {
    std::vector<Interval> left, right, answers;

    BoostColumns(std::size_t length, const double *lefts, const double *rights) : answers(length) {
        for (std::size_t row = 0; row < length; row++) {
            left.push_back(Interval(lefts[2 * row], lefts[2 * row + 1]));
            right.push_back(Interval(rights[2 * row], rights[2 * row + 1]));
        }
    }

    void combine(unsigned operation) override {
        Held held;
        (void)held;
        combine_each(operation, left, right, answers);
    }

    void read(double *ends) const override {
        for (std::size_t row = 0; row < answers.size(); row++) {
            ends[2 * row] = answers[row].lower();
            ends[2 * row + 1] = answers[row].upper();
        }
    }
};

namespace lib = boost::numeric::interval_lib;

// Boost's default: rounding to opposite sides in one mode, which each operation saves and restores, and strict checking.
typedef boost::numeric::interval<double> Default;

// A mode for each end, saved and restored by each operation, and checking that throws nothing.
typedef lib::policies<lib::save_state<lib::rounded_transc_std<double>>, lib::checking_base<double>> BasePolicies;
typedef boost::numeric::interval<double, BasePolicies> Base;

// The default, with the mode saved, set and restored once a column: Boost's own advice for loops.
typedef lib::unprotect<Default>::type Unprotected;
typedef Default::traits_type::rounding Mode;

struct MpfiColumns : Columns {
    std::vector<__mpfi_struct> left, right, answers;

    MpfiColumns(std::size_t length, const double *lefts, const double *rights)
        : left(length), right(length), answers(length) {
        for (std::size_t row = 0; row < length; row++) {
            mpfi_init2(&left[row], DOUBLE_BITS);
            mpfi_init2(&right[row], DOUBLE_BITS);
            mpfi_init2(&answers[row], DOUBLE_BITS);
            mpfi_interv_d(&left[row], lefts[2 * row], lefts[2 * row + 1]);
            mpfi_interv_d(&right[row], rights[2 * row], rights[2 * row + 1]);
        }
    }

    ~MpfiColumns() override {
        for (std::size_t row = 0; row < answers.size(); row++) {
            mpfi_clear(&left[row]);
            mpfi_clear(&right[row]);
            mpfi_clear(&answers[row]);
        }
    }

    typedef int Call(mpfi_ptr, mpfi_srcptr, mpfi_srcptr);

    void each(Call *call) {
        for (std::size_t row = 0; row < answers.size(); row++) call(&answers[row], &left[row], &right[row]);
    }

    void combine(unsigned operation) override {
        switch (operation) {
        case ADD: each(mpfi_add); break;
        case SUBTRACT: each(mpfi_sub); break;
        case MULTIPLY: each(mpfi_mul); break;
        case DIVIDE: each(mpfi_div); break;
        }
    }

    void read(double *ends) const override {
        for (std::size_t row = 0; row < answers.size(); row++) {
            ends[2 * row] = mpfr_get_d(&answers[row].left, MPFR_RNDD);
            ends[2 * row + 1] = mpfr_get_d(&answers[row].right, MPFR_RNDU);
        }
    }
};

} // namespace

extern "C" {

// The columns of a peer, by its place in the enum of src/peers.rs.
Columns *peers_made(unsigned peer, std::size_t length, const double *left, const double *right) {
    switch (peer) {
    case 0: return new BoostColumns<Default, Nothing>(length, left, right);
    case 1: return new BoostColumns<Base, Nothing>(length, left, right);
    case 2: return new BoostColumns<Unprotected, Mode>(length, left, right);
    default: return new MpfiColumns(length, left, right);
    }
}

void peers_combine(Columns *columns, unsigned operation) { columns->combine(operation); }

void peers_read(const Columns *columns, double *ends) { columns->read(ends); }

void peers_dropped(Columns *columns) { delete columns; }
}
