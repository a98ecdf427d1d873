// SPDX-License-Identifier: Apache-2.0 OR BSD-3-Clause
//! Empty, because cargo builds it for tests, which use it only with the feature `serde`.
