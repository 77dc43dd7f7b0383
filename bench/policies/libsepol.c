/* Reads a policy as libsepol does: its status is 0 where the policy is accepted. Build: cc -O2 libsepol.c -lsepol */
#include <sepol/policydb.h>
#include <stdio.h>

int main(int argc, char **argv)
{
	sepol_policydb_t *policy;
	sepol_policy_file_t *file;
	FILE *in = argc == 2 ? fopen(argv[1], "rb") : NULL;

	if (!in || sepol_policydb_create(&policy) || sepol_policy_file_create(&file))
		return 2;
	sepol_policy_file_set_fp(file, in);
	return sepol_policydb_read(policy, file) != 0;
}
