/* security.c: identifiers, lists and descriptors, as wdm_security.h has them. */
#include "wdm_security.h"

ULONG RtlLengthRequiredSid(ULONG Count) { return (ULONG)(offsetof(SID, SubAuthority) + Count * sizeof(ULONG)); }
PULONG RtlSubAuthoritySid(PSID Sid, ULONG Index) { return &((PISID)Sid)->SubAuthority[Index]; }
ULONG RtlLengthSid(PSID Sid) { return RtlLengthRequiredSid(((PISID)Sid)->SubAuthorityCount); }

NTSTATUS RtlInitializeSid(PSID Sid, PSID_IDENTIFIER_AUTHORITY Authority, UCHAR Count)
{
    PISID sid = Sid;
    if (Count > SID_MAX_SUB_AUTHORITIES)
        return STATUS_INVALID_PARAMETER;
    sid->Revision = SID_REVISION;
    sid->SubAuthorityCount = Count;
    sid->IdentifierAuthority = *Authority;
    return STATUS_SUCCESS;
}

BOOLEAN RtlValidSid(PSID Sid)
{
    return Sid && ((PISID)Sid)->Revision == SID_REVISION && ((PISID)Sid)->SubAuthorityCount <= SID_MAX_SUB_AUTHORITIES;
}

BOOLEAN RtlEqualSid(PSID First, PSID Second)
{
    return RtlLengthSid(First) == RtlLengthSid(Second) && !memcmp(First, Second, RtlLengthSid(First));
}

NTSTATUS RtlCopySid(ULONG Room, PSID To, PSID From)
{
    if (Room < RtlLengthSid(From))
        return STATUS_BUFFER_TOO_SMALL;
    memcpy(To, From, RtlLengthSid(From));
    return STATUS_SUCCESS;
}

NTSTATUS RtlCreateAcl(PACL Acl, ULONG Room, ULONG Revision)
{
    if (Room < sizeof *Acl)
        return STATUS_BUFFER_TOO_SMALL;
    if (Room > MAXUSHORT)
        return STATUS_INVALID_PARAMETER;
    *Acl = (ACL){ .AclRevision = (UCHAR)Revision, .AclSize = (USHORT)(Room & ~3u) };
    return STATUS_SUCCESS;
}

/* The entry of that number, or where the next one goes. */
static PACE_HEADER entry_at(PACL acl, ULONG index)
{
    PACE_HEADER ace = (PACE_HEADER)(acl + 1);
    for (ULONG i = 0; i < index; i++)
        ace = Add2Ptr(ace, ace->AceSize);
    return ace;
}

NTSTATUS RtlAddAccessAllowedAce(PACL Acl, ULONG Revision, ULONG Access, PSID Sid)
{
    PACCESS_ALLOWED_ACE ace = (PACCESS_ALLOWED_ACE)(PVOID)entry_at(Acl, Acl->AceCount);
    const ULONG size = (ULONG)offsetof(ACCESS_ALLOWED_ACE, SidStart) + RtlLengthSid(Sid);
    (void)Revision;
    if ((PUCHAR)ace + size > (PUCHAR)Acl + Acl->AclSize)
        return STATUS_ALLOTTED_SPACE_EXCEEDED;
    ace->Header = (ACE_HEADER){ ACCESS_ALLOWED_ACE_TYPE, 0, (USHORT)size };
    ace->Mask = Access;
    memcpy(&ace->SidStart, Sid, RtlLengthSid(Sid));
    Acl->AceCount++;
    return STATUS_SUCCESS;
}

NTSTATUS RtlGetAce(PACL Acl, ULONG Index, PVOID *Ace)
{
    if (Index >= Acl->AceCount)
        return STATUS_INVALID_PARAMETER;
    *Ace = entry_at(Acl, Index);
    return STATUS_SUCCESS;
}

NTSTATUS RtlCreateSecurityDescriptor(PSECURITY_DESCRIPTOR Descriptor, ULONG Revision)
{
    if (Revision != SECURITY_DESCRIPTOR_REVISION)
        return STATUS_UNKNOWN_REVISION;
    *(PISECURITY_DESCRIPTOR)Descriptor = (SECURITY_DESCRIPTOR){ .Revision = SECURITY_DESCRIPTOR_REVISION };
    return STATUS_SUCCESS;
}

NTSTATUS RtlSetDaclSecurityDescriptor(PSECURITY_DESCRIPTOR Descriptor, BOOLEAN Present, PACL Dacl, BOOLEAN Defaulted)
{
    PISECURITY_DESCRIPTOR d = Descriptor;
    (void)Defaulted;
    d->Control = (USHORT)(Present ? d->Control | SE_DACL_PRESENT : d->Control & ~SE_DACL_PRESENT);
    d->Dacl = Present ? Dacl : NULL;
    return STATUS_SUCCESS;
}

NTSTATUS RtlGetDaclSecurityDescriptor(PSECURITY_DESCRIPTOR Descriptor, PBOOLEAN Present, PACL *Dacl, PBOOLEAN Defaulted)
{
    PISECURITY_DESCRIPTOR d = Descriptor;
    *Present = (d->Control & SE_DACL_PRESENT) != 0;
    *Dacl = d->Dacl;
    *Defaulted = FALSE;
    return STATUS_SUCCESS;
}

NTSTATUS RtlSetOwnerSecurityDescriptor(PSECURITY_DESCRIPTOR Descriptor, PSID Owner, BOOLEAN Defaulted)
{
    (void)Defaulted;
    ((PISECURITY_DESCRIPTOR)Descriptor)->Owner = Owner;
    return STATUS_SUCCESS;
}

NTSTATUS RtlGetOwnerSecurityDescriptor(PSECURITY_DESCRIPTOR Descriptor, PSID *Owner, PBOOLEAN Defaulted)
{
    *Owner = ((PISECURITY_DESCRIPTOR)Descriptor)->Owner;
    *Defaulted = FALSE;
    return STATUS_SUCCESS;
}

NTSTATUS RtlSetGroupSecurityDescriptor(PSECURITY_DESCRIPTOR Descriptor, PSID Group, BOOLEAN Defaulted)
{
    (void)Defaulted;
    ((PISECURITY_DESCRIPTOR)Descriptor)->Group = Group;
    return STATUS_SUCCESS;
}

NTSTATUS RtlGetGroupSecurityDescriptor(PSECURITY_DESCRIPTOR Descriptor, PSID *Group, PBOOLEAN Defaulted)
{
    *Group = ((PISECURITY_DESCRIPTOR)Descriptor)->Group;
    *Defaulted = FALSE;
    return STATUS_SUCCESS;
}
