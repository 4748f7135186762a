//! The functions of the library as `include/sejjekoru.h` declares them; a [`Bay`] is its `uint16_t`. What the caller must ensure is said there.

use crate::{Bay, Line, Record};

/// Every function is handed the yard first and `value` last; what is its own stands between them.
macro_rules! declare {
    ($($function:ident($($own:ident: $kind:ty),*);)*) => {
        extern "C" {
            $(
            /// As `include/sejjekoru.h` declares it.
            pub fn $function(
                bays: u64,
                rails: *const Bay,
                rails_len: usize,
                start: *const Bay,
                start_len: usize,
                goal: *const Bay,
                goal_len: usize,
                $($own: $kind,)*
                value: *mut u64,
            ) -> u64;
            )*
        }
    };
}

declare! {
    sejjekoru_plan(plan: *mut u64, plan_len: usize, parked: *mut u64);
    sejjekoru_plan_lean(plan: *mut u64, plan_len: usize, parked: *mut u64);
    sejjekoru_check(plan: *const u64, plan_len: usize);
    sejjekoru_slots(plan: *const u64, plan_len: usize, slots: *mut u32, slots_len: usize);
    sejjekoru_report(plan: *const u64, plan_len: usize, marks: *mut u8, marks_len: usize, name: u64);
    sejjekoru_shorten(plan: *const u64, plan_len: usize, marks: *const u8, marks_len: usize, out: *mut u64, out_len: usize);
    sejjekoru_placement(plan: *const u64, plan_len: usize, marks: *const u8, marks_len: usize, at: *mut Bay, at_len: usize);
    sejjekoru_open(
        plan: *const u64, plan_len: usize, marks: *const u8, marks_len: usize, record: *mut Record, lines: *mut Line, lines_len: usize
    );
    sejjekoru_agrees(
        plan: *const u64, plan_len: usize, marks: *const u8, marks_len: usize, record: *const Record, lines: *const Line, lines_len: usize
    );
    sejjekoru_report_billed(
        plan: *const u64, plan_len: usize, marks: *mut u8, marks_len: usize, name: u64, record: *mut Record, lines: *mut Line, lines_len: usize
    );
}

// Functions that are handed no yard.
extern "C" {
    /// As `include/sejjekoru.h` declares it.
    pub fn sejjekoru_reverse(list: *const u64, list_len: usize, out: *mut u64, out_len: usize, value: *mut u64) -> u64;
}

/// Calls one of the functions with a yard, then what is the function's own; number and value are answered. A list in brackets, `[list]` or
/// `[mut list]`, goes as its pointer and its length. The yard has the fields of [`crate::Yard`]. `value` begins as a number that no answer has,
/// so that it shows if none is stored.
#[doc(hidden)]
#[macro_export]
macro_rules! ask {
    (@$function:ident $yard:ident ($($own:expr,)*) [mut $list:expr], $($rest:tt)*) => {
        $crate::ask!(@$function $yard ($($own,)* $list.as_mut_ptr(), $list.len(),) $($rest)*)
    };
    (@$function:ident $yard:ident ($($own:expr,)*) [$list:expr], $($rest:tt)*) => {
        $crate::ask!(@$function $yard ($($own,)* $list.as_ptr(), $list.len(),) $($rest)*)
    };
    (@$function:ident $yard:ident ($($own:expr,)*) $one:expr, $($rest:tt)*) => {
        $crate::ask!(@$function $yard ($($own,)* $one,) $($rest)*)
    };
    (@$function:ident $yard:ident ($($own:expr,)*)) => {{
        let mut value = u64::MAX;
        let number = $crate::raw::$function(
            $yard.bays,
            $yard.rails.as_ptr(),
            $yard.rails.len(),
            $yard.start.as_ptr(),
            $yard.start.len(),
            $yard.goal.as_ptr(),
            $yard.goal.len(),
            $($own,)*
            &mut value,
        );
        (number, value)
    }};
    ($function:ident, $yard:expr, $($own:tt)*) => {{
        let yard = &$yard;
        $crate::ask!(@$function yard () $($own)*,)
    }};
}
