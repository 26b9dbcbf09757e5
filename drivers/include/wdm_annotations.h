/* wdm_annotations.h: what source code says to the kit's analysers, and compilers here don't read. */
#ifndef WDM_ANNOTATIONS_H
#define WDM_ANNOTATIONS_H

#define IN
#define OUT
#define OPTIONAL
#define __in
#define __out
#define __inout
#define __in_opt
#define __out_opt
#define __inout_opt
#define __checkReturn
#define __success_
#define __reserved
#define __nullterminated
#define __drv_requiresIRQL_
#define __drv_sameIRQL
#define __drv_when_
#define __drv_aliasesMem
#define __drv_mustHold_
#define __drv_freesMem_
#define __deref_out
#define __deref_out_opt
#define __deref_opt_out
#define __callback
#define __user_driver
#define __kernel_driver
#define __kernel_code
#define __drv_in_
#define __drv_out_
#define _In_
#define _Out_
#define _Inout_
#define _In_opt_
#define _Out_opt_
#define _Inout_opt_
#define _In_z_
#define _In_opt_z_
#define _Inout_z_
#define _Out_z_
#define _Outptr_
#define _Outptr_opt_
#define _Outptr_result_maybenull_
#define _Outptr_result_z_
#define _COM_Outptr_
#define _Ret_maybenull_
#define _Ret_notnull_
#define _Ret_z_
#define _Post_invalid_
#define _Post_notnull_
#define _Post_maybenull_
#define _Pre_notnull_
#define _Pre_maybenull_
#define _Pre_valid_
#define _Post_valid_
#define _Notnull_
#define _Maybenull_
#define _Null_terminated_
#define _NullNull_terminated_
#define _Valid_
#define _Notvalid_
#define _Const_
#define _Reserved_
#define _Deref_out_
#define _Check_return_
#define _Must_inspect_result_
#define _Use_decl_annotations_
#define _Printf_format_string_
#define _Field_z_
#define _Unreferenced_parameter_
#define _Pre_
#define _Post_
#define _Interlocked_operand_
#define _IRQL_requires_same_
#define _IRQL_saves_
#define _IRQL_restores_
#define _IRQL_is_cancel_
#define _IRQL_uses_cancel_
#define _Frees_ptr_
#define _Frees_ptr_opt_
#define _Strict_type_match_
#define _Points_to_data_
#define _Literal_
#define _Notliteral_
#define _Kernel_clear_do_init_
#define _Kernel_IoGetDmaAdapter_
#define __drv_allocatesMem_
#define _Null_
#define _Enum_is_bitflag_
#define __in_bcount(a)
#define __in_ecount(a)
#define __out_bcount(a)
#define __out_ecount(a)
#define __inout_bcount(a)
#define __inout_ecount(a)
#define __in_bcount_opt(a)
#define __out_bcount_opt(a)
#define __in_ecount_opt(a)
#define __out_ecount_opt(a)
#define __field_bcount(a)
#define __field_ecount(a)
#define __drv_dispatchType(a)
#define __drv_functionClass(a)
#define __drv_requiresIRQL(a)
#define __drv_maxIRQL(a)
#define __drv_minIRQL(a)
#define __drv_raisesIRQL(a)
#define __drv_setsIRQL(a)
#define __drv_clearDoInit(a)
#define __drv_freesMem(a)
#define __drv_allocatesMem(a)
#define __drv_at(a)
#define __drv_in(a)
#define __drv_out(a)
#define __drv_reportError(a)
#define __drv_valueIs(a)
#define __success(a)
#define __drv_preferredFunction(a)
#define __drv_arg(a)
#define _In_reads_(a)
#define _In_reads_opt_(a)
#define _In_reads_bytes_(a)
#define _In_reads_bytes_opt_(a)
#define _In_reads_z_(a)
#define _In_reads_or_z_(a)
#define _Out_writes_(a)
#define _Out_writes_opt_(a)
#define _Out_writes_bytes_(a)
#define _Out_writes_bytes_opt_(a)
#define _Out_writes_z_(a)
#define _Out_writes_all_(a)
#define _Out_writes_bytes_all_(a)
#define _Inout_updates_(a)
#define _Inout_updates_opt_(a)
#define _Inout_updates_bytes_(a)
#define _Inout_updates_bytes_opt_(a)
#define _Inout_updates_z_(a)
#define _Outptr_result_buffer_(a)
#define _Outptr_result_bytebuffer_(a)
#define _Field_size_(a)
#define _Field_size_opt_(a)
#define _Field_size_bytes_(a)
#define _Field_size_bytes_opt_(a)
#define _Field_size_full_(a)
#define _Field_size_bytes_full_(a)
#define _Field_range_unused_(a)
#define _Dispatch_type_(a)
#define _Function_class_(a)
#define _IRQL_requires_(a)
#define _IRQL_requires_max_(a)
#define _IRQL_requires_min_(a)
#define _IRQL_raises_(a)
#define _IRQL_always_function_max_(a)
#define _IRQL_always_function_min_(a)
#define _IRQL_limited_to_(a)
#define _Acquires_lock_(a)
#define _Releases_lock_(a)
#define _Requires_lock_held_(a)
#define _Requires_lock_not_held_(a)
#define _Requires_exclusive_lock_held_(a)
#define _Requires_shared_lock_held_(a)
#define _Acquires_exclusive_lock_(a)
#define _Acquires_shared_lock_(a)
#define _Releases_exclusive_lock_(a)
#define _Releases_shared_lock_(a)
#define _Has_lock_kind_(a)
#define _Guarded_by_(a)
#define _Interlocked_(a)
#define _Success_(a)
#define _On_failure_(a)
#define _Return_type_success_(a)
#define _Ret_range_unused_(a)
#define _Pre_satisfies_(a)
#define _Post_satisfies_(a)
#define _Satisfies_(a)
#define _Struct_size_bytes_(a)
#define _Const_post_(a)
#define _Kernel_requires_resource_held_(a)
#define _Kernel_requires_resource_not_held_(a)
#define _Kernel_acquires_resource_(a)
#define _Kernel_releases_resource_(a)
#define _Ret_writes_bytes_maybenull_(a)
#define _Ret_writes_maybenull_(a)
#define _Ret_writes_bytes_(a)
#define _Post_writable_byte_size_(a)
#define _Post_readable_byte_size_(a)
#define _Analysis_mode_(a)
#define _Writable_bytes_(a)
#define _Readable_bytes_(a)
#define __drv_mustHold(a)
#define __drv_neverHold(a)
#define __drv_acquiresResource(a)
#define __drv_releasesResource(a)
#define _When_(a, b)
#define _At_(a, b)
#define _In_range_(a, b)
#define _Out_range_(a, b)
#define _Field_range_(a, b)
#define _Ret_range_(a, b)
#define _Deref_out_range_(a, b)
#define _Deref_in_range_(a, b)
#define _Out_writes_to_(a, b)
#define _Out_writes_to_opt_(a, b)
#define _Out_writes_bytes_to_(a, b)
#define _Out_writes_bytes_to_opt_(a, b)
#define _Inout_updates_to_(a, b)
#define _Inout_updates_bytes_to_(a, b)
#define _IRQL_saves_global_(a, b)
#define _IRQL_restores_global_(a, b)
#define __out_bcount_part(a, b)
#define __out_ecount_part(a, b)
#define __in_range(a, b)
#define __drv_when(a, b)
#define __drv_reportErrorIf(a, b)
#define _Outptr_result_buffer_to_(a, b)
#define _Outptr_result_bytebuffer_to_(a, b)
#define _Group_(a)

#endif
