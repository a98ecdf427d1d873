// SPDX-License-Identifier: Apache-2.0 OR BSD-3-Clause
//! The calls that each kind of object has.

/// Defines the calls that destroy, copy and compare objects of one kind, and those that save and read them if
/// there are any.
macro_rules! object_calls {
    ($handle:ident: $destroy:ident, $copy:ident, $equal:ident) => {
        $crate::objects::calls! {
            takes $destroy(object: *mut $handle) {
                // SAFETY: the object is null or from a call that creates one, and is not used after `DVS_OK`.
                unsafe { $crate::handle::Handle::destroy(object) }?
            }
            reads $copy(object: $crate::In<$handle>) -> copied: *mut $handle {
                $crate::handle::Handle::new(object.try_clone($crate::rattle::Global)?)?
            }
            reads $equal(one: $crate::In<$handle>, other: $crate::In<$handle>) -> are_equal: bool {
                one == $crate::handle::non_null(other)?.get()
            }
        }
    };
    ($handle:ident: $destroy:ident, $copy:ident, $equal:ident, $save:ident by $saver:expr,
        $($read:ident, $read_within:ident by $reader:expr);+) => {
        $crate::objects::object_calls! { $handle: $destroy, $copy, $equal }

        $crate::objects::calls! {
            reads $save(object: $crate::In<$handle>, text: $crate::Out<*mut core::ffi::c_char>)
                -> length: usize {
                $crate::texts::save(text, || $saver(object))?
            }
        }

        $(
            /// # Safety
            ///
            /// The text is null or points to `length` readable bytes.
            #[unsafe(no_mangle)]
            pub unsafe extern "C" fn $read(
                text: *const core::ffi::c_char,
                length: usize,
                object: $crate::Out<*mut $handle>,
            ) -> $crate::dvs_status {
                // SAFETY: the caller's contract.
                unsafe { $read_within(text, length, None, object, None) }
            }

            /// # Safety
            ///
            /// The text is null or points to `length` readable bytes.
            #[unsafe(no_mangle)]
            pub unsafe extern "C" fn $read_within(
                text: *const core::ffi::c_char,
                length: usize,
                limits: $crate::In<$crate::json::dvs_text_limits>,
                object: $crate::Out<*mut $handle>,
                fault: $crate::Out<$crate::json::dvs_text_fault>,
            ) -> $crate::dvs_status {
                // SAFETY: the caller's contract.
                unsafe { $crate::texts::read(text, length, limits, object, fault, $reader) }
            }
        )+
    };
}

/// Returns the first argument of a call, or the object that it points to, if the call reads or changes one.
macro_rules! argument {
    (reads $object:ident) => {
        $crate::handle::non_null($object)?.get()
    };
    (changes $object:ident) => {
        $crate::handle::non_null($object)?.get_mut()?
    };
    (takes $value:ident) => {
        $value
    };
}

/// Defines calls with the form of the header. The block returns the result, or an error by `?`.
///
/// `changes dvs_id_allocate(ids: In<dvs_id_allocator>) -> id: u32 [refusal] { .. }` defines a call with the
/// arguments `ids`, `id` and `refusal`. In the block, `ids` is the object for writing. It is the object for
/// reading after `reads`, and the argument itself after `takes`. Null pointers and a visited object are errors
/// first. The result goes to `id`, and the details of an error to `refusal`.
///
/// After `;` comes a request, which is checked before the block. `failed of count` receives the index of the
/// member that failed of an array of this length.
macro_rules! calls {
    ($($does:ident $name:ident($first:ident: $first_type:ty
        $(, $argument:ident: $type:ty)* $(; $request:ident)?)
        $(-> $result:ident: $written:ty)? $(, $failed:ident of $length:ident)? $([$refusal:ident])?
        $answer:block)+) => {$(
        /// # Safety
        ///
        /// The arguments are as the header requires.
        #[unsafe(no_mangle)]
        pub unsafe extern "C" fn $name(
            $first: $first_type,
            $($argument: $type,)*
            $($request: $crate::In<$crate::requests::dvs_request>,)?
            $($result: $crate::Out<$written>,)?
            $($failed: $crate::Out<usize>,)?
            $($refusal: $crate::Out<$crate::dvs_refusal>,)?
        ) -> $crate::dvs_status {
            let call = || -> Result<(), $crate::CallError> {
                $(let $request = $crate::handle::non_null($request)?;)?
                $(let $result = $crate::handle::non_null($result)?;)?
                let $first = $crate::objects::argument!($does $first);
                $(let $request = $request.constraint()?;)?
                // It is not used if the call has no result.
                let _answer = $answer;
                $($result.write(_answer);)?
                Ok(())
            };
            let answer = call();
            $($crate::lists::write_failed(&answer, $length, $failed);)?
            $crate::status_of(answer, None$(.or($refusal))?)
        }
    )+};
}

/// Defines visits of the items that an expression returns, each converted to a type of C. A visit with
/// `[refusal]` also writes the details of an error there.
macro_rules! visits {
    ($($name:ident($object:ident: $handle:ident $(, $argument:ident: $type:ty)*) of $item:ty
        $([$refusal:ident])? { $items:expr })+) => {
        $crate::objects::calls! {$(
            takes $name(
                object: $crate::In<$handle> $(, $argument: $type)*,
                visitor: Option<$crate::handle::Visitor<$item>>, context: *mut core::ffi::c_void
            ) $([$refusal])? {
                let visitor = visitor.map(|visitor| move |item| visitor(context, Into::into(item)));
                $crate::handle::visit(object, |$object| Ok($items), visitor)?
            }
        )+}
    };
}

pub(crate) use {argument, calls, object_calls, visits};
